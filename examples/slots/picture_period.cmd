picture 3
