check sheet_right
