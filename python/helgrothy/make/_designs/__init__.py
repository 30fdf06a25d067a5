"""Test designs: factors, whose values have to come together, and the search for few tests. `tests` is over this."""
