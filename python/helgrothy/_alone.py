"""Where modules are looked for under `python3 -m helgrothy`.

Python puts the current folder and those of PYTHONPATH before its own modules. So whatever it loads before the package,
and the package itself, may come from there. Once the package runs, nothing else does.
"""

# Both are loaded when Python starts. Nothing else may be imported here, not even from __future__.
import os
import sys


def _is_command() -> bool:
    """Whether the package is being imported by `python3 -m helgrothy`, and not by a program that uses it."""
    # Python's word for a command that is still being looked for.
    if sys.argv[:1] != ["-m"]:
        return False
    frame = sys._getframe()
    while frame.f_back is not None:
        frame = frame.f_back
        name = str(frame.f_globals.get("__name__"))
        if name not in (__name__, __package__) and not frame.f_code.co_filename.startswith("<frozen importlib"):
            return name == "runpy"
    return False


def _leave_out_strangers() -> None:
    """Takes the current folder and those of PYTHONPATH from the folders of modules, but not Python's own."""
    named = os.environ.get("PYTHONPATH", "").split(os.pathsep)
    strangers = {os.path.normpath(os.path.join(_current(), folder)) for folder in ["", *named]}
    own = os.path.dirname(os.__file__)
    sys.path[:] = [it for it in sys.path if it == own or os.path.isabs(it) and os.path.normpath(it) not in strangers]


def _current() -> str:
    try:
        return os.getcwd()
    except OSError:
        # It was removed, so nothing comes from there.
        return ""


if _is_command():
    _leave_out_strangers()
