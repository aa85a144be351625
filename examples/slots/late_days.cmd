late 4 1350 3 3
