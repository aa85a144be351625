month 2026 11 0
