nth 3 7 0
