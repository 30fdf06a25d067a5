"""Exact cover problems from Python, solved by the proved programs dlx1, dlx2 and dlx3 and judged by dlxcheck.

    from helgrothy import Problem

    problem = Problem("abc", options=["ab", "c", "a", "bc"])
    for solution in problem.solve():
        print(solution)

The modules, which need no import of their own:

    make      makes problems that people know, such as `make.sudoku.problem(..)`
    draw      draws solutions as boards; `table` as tables
    data      writes solutions as JSON and CSV
    symmetry  gives one solution of those that are images of each other
    hint      finds a step that is forced
    cost      has what `solve(cost=..)` gives and raises; `wishes` has costs by the names of items
    given     has a problem with some options and without others, as `solve(given=..)` searches it
    shuffle   has the random order of `solve(seed=..)`
    minimal   finds out which of the options that are given a single solution takes
    lint      looks for slips in the text of a problem
    why       says why a problem has no solution
    graphs    makes problems of graphs, such as those of networkx: matchings, colourings, covers by edges
    export    writes problems for other solvers; `answers` reads what they answer
    engines   finds one solution by other engines as well as the programs

The classes have their modules, `problem` and `errors`, and what begins with an underscore is the package's own.
`Problem.count(jobs=..)` searches by many processors. `python3 -m helgrothy --help` has the same as commands.
"""

# First, since it says where the modules of all that follows may come from.
from . import _alone  # noqa: F401, I001
from importlib import import_module
from typing import TYPE_CHECKING, Any

if TYPE_CHECKING:
    from . import (
        answers,
        cost,
        data,
        draw,
        engines,
        export,
        given,
        graphs,
        hint,
        lint,
        make,
        minimal,
        shuffle,
        symmetry,
        table,
        why,
        wishes,
    )
    from ._run.solution import Listed, Solution
    from ._run.stream import Solutions
    from ._spans import Progress
    from ._text.listing import Null, Step
    from ._text.syntax import Bounds
    from .errors import (
        AnswerFault,
        Fault,
        HelgrothyError,
        ListingFault,
        NoPicture,
        OutOfTime,
        ProblemFault,
        ProgramFailed,
        ProgramNotFound,
        SearchFault,
        TableFault,
        UnknownChoice,
    )
    from .problem import Problem

__version__ = "0.1.0"
__all__ = [
    "AnswerFault",
    "Bounds",
    "Fault",
    "HelgrothyError",
    "Listed",
    "ListingFault",
    "NoPicture",
    "Null",
    "OutOfTime",
    "Problem",
    "ProblemFault",
    "ProgramFailed",
    "ProgramNotFound",
    "Progress",
    "SearchFault",
    "Solution",
    "Solutions",
    "Step",
    "TableFault",
    "UnknownChoice",
    "answers",
    "cost",
    "data",
    "draw",
    "engines",
    "export",
    "given",
    "graphs",
    "hint",
    "lint",
    "make",
    "minimal",
    "shuffle",
    "symmetry",
    "table",
    "why",
    "wishes",
]

# Where the names come from that are neither modules nor errors. All are loaded when they are first used, so that a
# command waits for no module that it doesn't need.
_HOMES = {
    "Bounds": "_text.syntax",
    "Listed": "_run.solution",
    "Null": "_text.listing",
    "Problem": "problem",
    "Progress": "_spans",
    "Solution": "_run.solution",
    "Solutions": "_run.stream",
    "Step": "_text.listing",
}


def _load(name: str) -> Any:
    """The value of a name that isn't loaded yet."""
    if name not in __all__:
        raise AttributeError(f"module {__name__!r} has no attribute {name!r}")
    if name.islower():
        return import_module(f"{__name__}.{name}")
    value = getattr(import_module(f"{__name__}.{_HOMES.get(name, 'errors')}"), name)
    if value.__module__.startswith(f"{__name__}._"):
        # What help and messages name is where a caller has it from.
        value.__module__ = __name__
    globals()[name] = value
    return value


def _names() -> list[str]:
    """The public names, whether they are loaded or not."""
    return [*__all__, *(name for name in globals() if name[:2] == "__" and name not in ("__dir__", "__getattr__"))]


# A checker of types knows the names from above, and finds those that aren't there.
if not TYPE_CHECKING:
    __dir__, __getattr__ = _names, _load
