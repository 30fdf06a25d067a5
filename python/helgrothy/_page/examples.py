"""Examples that fill the local page's forms: of each kind the first one is there at first, and so is the first text."""

from __future__ import annotations

from collections.abc import Iterator
from dataclasses import asdict, dataclass, field
from typing import Any


@dataclass(frozen=True)
class Example:
    """An example: a kind with values for its fields, or a text with patterns for its picture; and perhaps costs, for
    the cheapest solution."""

    title: str
    kind: str = ""
    values: dict[str, str] = field(default_factory=dict)
    text: str = ""
    cell: str = ""
    grid: str = ""
    row: str = ""
    column: str = ""
    label: str = ""
    costs: str = ""


def _dominoes(rows: int, columns: int) -> str:
    """All ways to lay a domino onto a board."""
    cells = [(r, c) for r in range(1, rows + 1) for c in range(1, columns + 1)]
    lines = [" ".join(f"r{r}c{c}" for r, c in cells)]
    for r, c in cells:
        lines += [f"r{r}c{c} r{r}c{c + 1}"] * (c < columns) + [f"r{r}c{c} r{r + 1}c{c}"] * (r < rows)
    return "".join(f"{line}\n" for line in lines)


_EXAMPLES = [
    Example(
        "Sudoku",
        "sudoku",
        {
            "clues": "53..7....\n6..195...\n.98....6.\n8...6...3\n4..8.3..1\n7...2...6\n.6....28.\n...419..5\n....8..79"
        },
    ),
    Example(
        "Sudoku with 17 clues",
        "sudoku",
        {
            "clues": ".......1.\n4........\n.2.......\n....5.4.7\n..8...3..\n..1.9....\n3..4..2..\n.5.1.....\n...8.6..."
        },
    ),
    Example(
        "Sudoku with regions and cages",
        "sudoku",
        {
            "regions": "aabbb\naabbc\nadccc\ndddce\ndeeee",
            "cages": "kllmm\nklnno\nkppoo\nqprrs\nqtrss\n\nk=10 l=9 m=4 n=7 o=8 p=12 q=5 r=10 s=9 t=1",
        },
    ),
    Example("Eight queens", "queens", {"board": "8"}),
    Example(
        "Queens in coloured regions", "queens", {"board": "BCAAAA\nBCCCAA\nBCCCFF\nDDCCFF\nFFFFFE\nFFFFEE"}
    ),
    Example("Langford's pairs 1 to 7", "langford", {"pairs": "7"}),
    Example("Pentominoes in 6 by 10", "polyominoes", {"pieces": "pentominoes", "region": "6x10"}),
    Example(
        "Pentominoes round a hole",
        "polyominoes",
        {"pieces": "pentominoes", "region": "........\n" * 3 + "...##...\n" * 2 + "........\n" * 2 + "........"},
    ),
    Example("Tetrahexes in 4 by 7", "polyforms", {"pieces": "tetrahexes", "region": "4x7"}),
    Example(
        "Lozenges in a hexagon",
        "polyforms",
        {
            "pieces": "DD",
            "region": " .....\n.......\n.......\n .....",
            "grid": "triangle",
            "copies": "D=12",
        },
    ),
    Example("The Soma cube", "polycubes", {"pieces": "soma", "box": "3x3x3"}),
    Example(
        "A crossword of 28 words",
        "words",
        {
            "grid": ".....\n.#.#.\n.....\n.#.#.\n.....",
            "list": "actor ahead about arena dance dream enter event force heart\nhoney house light ocean other river "
            "shelf smart stone storm\nsugar table three tower train water white",
        },
    ),
    Example("A small nonogram", "nonogram", {"clues": "1 1\n5\n5\n3\n1\n\n2\n4\n4\n4\n2"}),
    Example(
        "A nonogram of 12 by 12",
        "nonogram",
        {
            "clues": "4\n8\n10\n2 2 2\n3 2 3\n12\n12\n2 6 2\n3 4 3\n2 2\n8\n4\n\n"
            "5\n8\n6 3\n2 3 1\n3 4 2\n9 2\n9 2\n3 4 2\n2 3 1\n6 3\n8\n5"
        },
    ),
    Example(
        "Kakuro", "kakuro", {"grid": "#   4\\  16\\ #\n\\8  .   .   13\\\n\\17 .   .   .\n#   \\8  .   ."}
    ),
    Example(
        "A roster of three people",
        "roster",
        {
            "table": "-      mon tue wed\nearly  1   1   1\nlate   1   1   0:1\n\n"
            "ann    2:3\nbob    2    -tue\ncat    1:2  -late"
        },
    ),
    Example(
        "A roster with wishes",
        "roster",
        {
            "table": "-      mon tue wed thu\nearly  1   1   1   1\nlate   1   1   1   1\n\nann    2:3\nbob    2:3\n"
            "cat    2:3",
        },
        costs="*/late ann 3\nmon/* bob 2\nwed/early cat -1\n",
    ),
    Example("A round robin of six", "roundrobin", {"teams": "ann home:1\nbob\ncat\ndan\neve\nfay away:5"}),
    Example(
        "Five tests of four factors",
        "tests",
        {
            "factors": "system linux mac\nbrowser firefox chrome\ndatabase postgresql mysql\nnetwork v4 v6",
            "tests": "5",
        },
    ),
    Example(
        "Exams in two rooms",
        "timetable",
        {
            "table": "day,mon,9 14\nday,tue,9 14\nroom,hall,,,30\nroom,lab,,-mon,2\nexam,maths\nexam,physics,,lab\n"
            "exam,latin,,-14\nexam,music,,mon\nperson,ann,maths latin music\nperson,bob,maths physics\n"
            "person,cat,latin physics,-tue-9\nperson,dan,maths music",
        },
    ),
    Example(
        "Three people on three days",
        text="ann bob cat | mon tue wed\nann mon\nann tue\nbob tue\nbob wed\ncat mon\ncat wed\n",
    ),
    Example("Seven items, six options", text="a b c d e f g\nc e\na d g\nb c f\na d f\nb g\nd e g\n"),
    Example(
        "Lessons with a table",
        text="maths art music | mon,hall mon,lab tue,hall tue,lab ann-mon ann-tue\nmaths mon,hall ann-mon\n"
        "maths tue,hall ann-tue\nart mon,lab ann-mon\nart tue,lab ann-tue\nmusic mon,hall\nmusic tue,hall\n",
        row="mon|tue",
        column="hall|lab",
    ),
    Example(
        "Colours: words that cross",
        text="across1 across2 down1 down2 | r1c1 r1c2 r2c1 r2c2\nacross1 r1c1:a r1c2:t\nacross1 r1c1:i r1c2:t\n"
        "across2 r2c1:s r2c2:o\nacross2 r2c1:m r2c2:e\ndown1 r1c1:a r2c1:s\ndown1 r1c1:i r2c1:m\n"
        "down2 r1c2:t r2c2:o\n",
        cell=r"r(\d)c(\d)",
    ),
    Example(
        "Bounds: two or three people a team",
        text="ann bob cat dan eve 2:3|red 2:3|blue\nann red\nann blue\nbob red\nbob blue\ncat red\ndan blue\n"
        "eve red\neve blue\n",
    ),
    Example(
        "Pairs in a ring of hexagons",
        text="r1c2 r1c3 r2c1 r2c3 r3c1 r3c2\nr1c2 r1c3\nr1c3 r2c3\nr2c3 r3c2\nr3c1 r3c2\nr2c1 r3c1\nr1c2 r2c1\n",
        cell=r"r(\d)c(\d)",
        grid="hex",
    ),
    Example("Dominoes on 4 by 5", text=_dominoes(4, 5), cell=r"r(\d)c(\d)"),
]


def examples() -> Iterator[dict[str, Any]]:
    """All examples, for a page."""
    return map(asdict, _EXAMPLES)


def first_of(kind: str) -> dict[str, str]:
    """The values of a kind's first example; none where it has no example."""
    return next((example.values for example in _EXAMPLES if example.kind == kind), {})
