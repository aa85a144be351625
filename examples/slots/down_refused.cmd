down 1 2 3
