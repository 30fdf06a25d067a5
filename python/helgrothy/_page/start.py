"""What the local page gets before anything is asked: its forms and examples."""

from __future__ import annotations

from typing import Any

from .document import frame
from .examples import examples, first_of
from .file import BODIES, SCRIPTS
from .forms import forms


def start() -> dict[str, Any]:
    """The kinds with their fields and examples, and the parts of a file of solutions."""
    return {
        "kinds": [{**form, "example": first_of(form["name"])} for form in forms()],
        "examples": list(examples()),
        "file": frame(BODIES, SCRIPTS),
    }
