up 3 8
