month 2026 13 3
