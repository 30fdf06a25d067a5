"""The commands of `helgrothy`: their words, what they read and print, and what each does."""
