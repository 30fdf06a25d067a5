"""The heads of the local page's answers."""

from __future__ import annotations

from http import HTTPStatus


def head(status: int, kind: str = "text/plain", policy: str = "default-src 'none'", length: int | None = None) -> bytes:
    """The head of an answer, which may be kept or shown nowhere but in the page that asked."""
    fields = {
        "Content-Type": f"{kind}; charset=utf-8",
        "Content-Security-Policy": policy,
        "Cache-Control": "no-store",
        "Referrer-Policy": "no-referrer",
        "X-Content-Type-Options": "nosniff",
        "X-Frame-Options": "DENY",
        "Cross-Origin-Opener-Policy": "same-origin",
        "Cross-Origin-Resource-Policy": "same-origin",
        "Connection": "close",
        **({} if length is None else {"Content-Length": str(length)}),
    }
    lines = [f"HTTP/1.1 {status} {HTTPStatus(status).phrase}", *(f"{name}: {value}" for name, value in fields.items())]
    return "".join(f"{line}\r\n" for line in [*lines, ""]).encode("latin-1")


def message(status: int, text: str = "") -> bytes:
    """A whole answer that says a line, or nothing but a status."""
    raw = text.encode()
    return head(status, length=len(raw)) + raw
