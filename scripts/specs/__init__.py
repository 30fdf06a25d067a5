"""Reads what the public calls of the libraries promise, and the definitions that these promises rest on."""
