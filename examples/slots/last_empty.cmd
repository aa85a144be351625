last no_such_book
