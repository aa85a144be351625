month 2026 11 5
