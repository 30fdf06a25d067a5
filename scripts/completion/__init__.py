"""Completion for shells, from the parsers of the commands."""
