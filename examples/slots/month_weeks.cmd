month 2028 2 4
