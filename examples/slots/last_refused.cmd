last book_refused
