#!/usr/bin/env python3
"""text_digest.py: the text of a span, given up to ` text ` on standard input, closed by its digest."""
import sys

MULTIPLIER, START = 0x9E3779B97F4A7C15, 0x243F6A8885A308D3


def taken(state: int, number: int) -> int:
    """The state after a number: both halves of a product, joined."""
    product = (state ^ number) * MULTIPLIER
    return product >> 64 ^ product % (1 << 64)


def text_digest(text: bytes) -> str:
    """The digest of a text: the state after each eight bytes, the first of them lowest, after those that are left, the
    last of them highest, and after how many these are."""
    state, whole = START, len(text) // 8 * 8
    for at in range(0, whole, 8):
        state = taken(state, int.from_bytes(text[at : at + 8], "little"))
    left = text[whole:]
    return f"{taken(taken(state, int.from_bytes(left.rjust(8, bytes(1)), 'little')), len(left)):016x}"


def closed(front: str) -> str:
    """A text of a span, given up to ` text `, with its digest. It stands for its bytes in latin-1."""
    return f"{front} text {text_digest(front.encode('latin-1'))}\n"


if __name__ == "__main__":
    sys.stdout.write(closed(sys.stdin.read()))
