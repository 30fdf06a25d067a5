"""The pages of solutions in a headless Chromium."""
