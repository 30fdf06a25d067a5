"""Pages of solutions for a browser: one file that stands alone (`--html`), and the local page of `helgrothy page`.

Both get a problem and its solutions from a `Record`, as lines of JSON, and show it by the same script. A record
holds text and numbers, no markup: the script makes each element itself, from a list of those that it knows.
"""
