last book
