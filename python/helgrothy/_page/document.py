"""Documents of HTML that stand alone: style, script and data are in them, and nothing else is loaded or run.

A policy in the document allows its own script and style, by what they are, and nothing else.
"""

from __future__ import annotations

import base64
import hashlib
import os
import re
from collections.abc import Iterable

from .._text.shown import escaped

_PARTS = os.path.join(os.path.dirname(__file__), "parts")
_STYLE = "look.css"
_MARK = re.compile(r"\{\{(\w+)\}\}")
_LESS = {"<": "\\u003c", ">": "\\u003e", "&": "\\u0026"}


def document(
    bodies: Iterable[str], title: str, scripts: Iterable[str], data: Iterable[str], connects: bool = False
) -> str:
    """A document: files of parts as its body and its script, and lines of JSON as its data.

    connects: whether it may ask the server that it came from.
    """
    before, between, behind = frame(bodies, scripts, connects)
    script = _in_script(f"[{','.join(data)}]")
    return f"{before}{escaped(title)}{between}{script}{behind}"


def frame(bodies: Iterable[str], scripts: Iterable[str], connects: bool = False) -> list[str]:
    """Such a document without its title and its data: what stands before, between and after these."""
    scripts = list(scripts)
    given = {
        "policy": escaped(policy(scripts, connects)),
        "style": _part(_STYLE),
        "body": "".join(map(_part, bodies)),
        "script": _script(scripts),
    }
    pieces = re.split(r"\{\{title\}\}|\{\{data\}\}", _part("frame.html"))
    # What is put in is never looked at for marks.
    return [_MARK.sub(lambda mark: given[mark.group(1)], piece) for piece in pieces]


def policy(scripts: Iterable[str], connects: bool = False) -> str:
    """What a document with these scripts may do: run them, by what they are, and nothing else."""
    return "; ".join(
        [
            "default-src 'none'",
            f"script-src '{_hash(_script(scripts))}'",
            f"style-src '{_hash(_part(_STYLE))}'",
            *(["connect-src 'self'"] if connects else []),
            "base-uri 'none'",
            "form-action 'none'",
            "require-trusted-types-for 'script'",
            "trusted-types 'none'",
        ]
    )


def _script(names: Iterable[str]) -> str:
    return "\n".join(map(_part, names))


def _in_script(data: str) -> str:
    """JSON for an element of a script: nothing in it begins or ends an element or a comment."""
    return re.sub("[<>&]", lambda sign: _LESS[sign.group()], data)


def _hash(text: str) -> str:
    return f"sha256-{base64.b64encode(hashlib.sha256(text.encode()).digest()).decode()}"


def _part(name: str) -> str:
    # Without pathlib, which loads what is for addresses: a page is written at each `--html`.
    with open(os.path.join(_PARTS, name), encoding="utf-8") as file:
        return file.read()
