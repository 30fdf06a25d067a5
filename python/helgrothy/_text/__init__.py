"""Text: of problems and of listings, names as the programs read them, and tables."""
