down 4 2 3
