"""Text as people may look at it: a name may hold bytes that steer a terminal, and SVG takes not every character."""

from __future__ import annotations

# The module `html` has a table of all names of signs, for which each picture would wait.
_MARKUP = str.maketrans({"&": "&amp;", "<": "&lt;", ">": "&gt;", '"': "&quot;", "'": "&#x27;"})


def text_of(raw: bytes) -> str:
    """Bytes as text; those that aren't UTF-8 come back as they were by `bytes_of`."""
    return raw.decode("utf-8", "surrogateescape")


def bytes_of(text: str) -> bytes:
    return text.encode("utf-8", "surrogateescape")


def shown(text: str) -> str:
    r"""The text with an escape (\x1b, \u202e) for each character that isn't printed, and each byte that isn't UTF-8."""
    return text if text.isprintable() else "".join(map(_shown, text))


def escaped(text: str) -> str:
    """Such a text as it stands in SVG and HTML."""
    return shown(text).translate(_MARKUP)


def _shown(character: str) -> str:
    if character.isprintable():
        return character
    code = ord(character)
    if 0xDC80 <= code <= 0xDCFF:
        # A byte, as `text_of` keeps it.
        code -= 0xDC00
    if code < 0x100:
        return f"\\x{code:02x}"
    return f"\\u{code:04x}" if code < 0x10000 else f"\\U{code:08x}"
