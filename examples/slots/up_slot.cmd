up 3 6 1
