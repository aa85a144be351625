picture 3 2026
