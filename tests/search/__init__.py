"""Searches with mishaps."""
