check sheet_wrong
