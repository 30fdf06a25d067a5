"""Runs of the programs: what they are given, and their lines read as solutions and counts."""
