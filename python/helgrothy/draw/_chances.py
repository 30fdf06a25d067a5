"""Pictures of chances: the share of all solutions in which a cell has a label, or is in one piece with another cell."""

from __future__ import annotations

from collections.abc import Callable, Iterator, Mapping, Sequence
from dataclasses import dataclass, replace
from typing import TYPE_CHECKING, Any, Optional

from .._run.occurrences import Occurrences
from ..errors import NoPicture
from . import SIDE, Cell, Drawing, Picture, Place
from ._boards import LEAST_LINE, Board, BoardJoins

if TYPE_CHECKING:
    from ..problem import Problem

__all__ = ["Joins", "any_side", "percent", "picture"]

# From which side the option of a line shows cells, where several options show the same ones; None where no picture of
# a single option says anything.
View = Optional[Callable[[str], str]]
# Of each cell how often it has each label.
Labels = dict[Place, dict[str, int]]
# Two cells, of which the second one is to the right of the first or below it.
Side = tuple[Place, Place]

_NOTHING, _QUEEN = ".", "Q"
# What a cell has in no solution is white, what it has in all is of this colour.
_LIGHT, _DARK = (255, 255, 255), (122, 172, 226)


def any_side(line: str) -> str:
    """The view where a cell is shown by one option of a solution."""
    return ""


def percent(times: int, total: int) -> str:
    """A share in percent, of which 0 and 100 are exact."""
    share = round(100 * times / total)
    if share == 0 and times:
        return "<1"
    return ">99" if share == 100 and times < total else str(share)


def picture(problem: Problem[Any], draw: Drawing, found: Occurrences, view: View) -> Picture:
    """The shares of what the cells of a problem's picture have. Raises `NoPicture`."""
    blank = draw([])
    if view is None or type(blank) not in (Picture, Board):
        raise NoPicture("pictures of single options say nothing of how often a cell has what")
    shown = list(_shown(problem, draw, blank, found.by_option))
    options = [option for option in shown if option.times]
    joined = _joined(blank, options)
    if joined:
        shares = {side: times / found.total for side, times in joined.items()}
        title = f"{blank.title}: how often cells are in one piece"
        return BoardJoins(blank, title, shares, _percent) if isinstance(blank, Board) else Joins(blank, title, shares)
    labels = _labels(options, view, found.total)
    has_one = len({_label(cell) for option in shown for cell in option.cells.values()}) == 1
    most = max((times for own in labels.values() for times in own.values()), default=0)
    cells = dict(blank.cells)
    for place, own in labels.items():
        old = cells.get(place, Cell())
        cells[place] = _share(old, own, found.total, most) if has_one else _choice(old, own, found.total)
    return blank.changed(f"{blank.title}: shares of all solutions", cells)


@dataclass(frozen=True)
class _Shown:
    """An option's line, in how many solutions it is, and the cells that it changes in the picture."""

    line: str
    times: int
    cells: Mapping[Place, Cell]


def _shown(problem: Problem[Any], draw: Drawing, blank: Picture, times: Sequence[int]) -> Iterator[_Shown]:
    for option, count in zip(problem.options, times):
        line = problem.line(option)
        cells = draw([line]).cells
        yield _Shown(line, count, {at: cell for at, cell in cells.items() if cell != blank.cells.get(at)})


# ---- labels


def _labels(options: Sequence[_Shown], view: Callable[[str], str], total: int) -> Labels:
    """How often each cell has each label; of several sides that show a cell the first one counts."""
    sides: dict[Place, str] = {}
    labels: Labels = {}
    for option in options:
        side = view(option.line)
        for place, cell in option.cells.items():
            if sides.setdefault(place, side) == side:
                own = labels.setdefault(place, {})
                own[_label(cell)] = own.get(_label(cell), 0) + option.times
    return {place: _once(own, total) for place, own in labels.items()}


def _label(cell: Cell) -> str:
    return cell.label or (_QUEEN if cell.is_queen else "")


def _once(own: dict[str, int], total: int) -> dict[str, int]:
    """The counts of a cell which several options of a solution show, as if one of them did."""
    shown = sum(own.values())
    return own if shown <= total else {label: times * total // shown for label, times in own.items()}


def _share(cell: Cell, own: dict[str, int], total: int, most: int) -> Cell:
    """A cell that has something or hasn't: how often it has, of which that of `most` is the darkest."""
    (times,) = own.values()
    return replace(cell, label=percent(times, total), fill=_heat(times / most))


def _choice(cell: Cell, own: dict[str, int], total: int) -> Cell:
    """A cell that has one of several labels: the likeliest one in the text, all of them in the SVG."""
    free = total - sum(own.values())
    ranked = sorted(own.items(), key=lambda pair: -pair[1])
    label, times = max(*ranked, (_NOTHING, free), key=lambda pair: pair[1])
    shown = label if times == total else f"{label} {percent(times, total)}%"
    marks = tuple((label, times / total) for label, times in own.items())
    return replace(cell, label=shown, is_quiet=True, fill=_heat(ranked[0][1] / total), marks=marks)


def _heat(share: float) -> str:
    return "#" + "".join(f"{round(a + (b - a) * share):02x}" for a, b in zip(_LIGHT, _DARK))


# ---- cells in one piece


def _joined(blank: Picture, options: Sequence[_Shown]) -> dict[Side, int]:
    """How often cells side by side are in one piece; nothing where options are no pieces."""
    found = dict.fromkeys(_sides(blank, blank.cells), 0)
    has_pieces = False
    for option in options:
        for a, b in _sides(blank, option.cells):
            old, new = blank.cells.get(a), option.cells[a].group
            if new is not None and new == option.cells[b].group and (old is None or new != old.group):
                found[a, b] += option.times
                has_pieces = True
    return found if has_pieces else {}


def _sides(blank: Picture, cells: Mapping[Place, Cell]) -> Iterator[Side]:
    for place in sorted(cells):
        for beside in blank.beside(place):
            if beside > place and beside in cells:
                yield place, beside


def _percent(share: float) -> str:
    return percent(round(share * 10**6), 10**6)


class Joins(Picture):
    """Cells, and between each two side by side the share of solutions in which they are in one piece."""

    def __init__(self, blank: Picture, title: str, shares: dict[Side, float]) -> None:
        super().__init__(title, dict(blank.cells))
        self.shares = shares

    def text(self) -> str:
        """An o for each cell, and percents between them."""
        rows, columns = self.extent
        lines = []
        for r in range(rows):
            across = [self._percent((r, c), (r, c + 1)) for c in range(columns)]
            lines.append("".join(("o" if (r, c) in self.cells else " ") + across[c].center(5) for c in range(columns)))
            lines.append("".join(self._percent((r, c), (r + 1, c)).ljust(6) for c in range(columns)))
        return "".join(f"{line.rstrip()}\n" for line in lines[:-1])

    def _percent(self, a: Place, b: Place) -> str:
        share = self.shares.get((a, b))
        return "" if share is None else _percent(share)

    def svg(self) -> str:
        """The lines between cells are as dark as it is rare that these are in one piece."""
        return super().svg().replace("</svg>\n", "".join(self._lines()) + "</svg>\n")

    def _lines(self) -> Iterator[str]:
        for ((r, c), (below, _)), share in self.shares.items():
            x, y = 4 + c * SIDE, 4 + r * SIDE
            is_below = below > r
            if 1 - share >= LEAST_LINE:
                way = f"M{x} {y + SIDE}h{SIDE}" if is_below else f"M{x + SIDE} {y}v{SIDE}"
                yield f'<path d="{way}" stroke="#222" stroke-width="2.5" stroke-opacity="{1 - share:.2f}"/>\n'
            at = (x + SIDE / 2, y + SIDE + 3.5) if is_below else (x + SIDE, y + SIDE / 2 + 3.5)
            words = self._percent((r, c), (below, c if is_below else c + 1)).replace("<", "&lt;").replace(">", "&gt;")
            yield (
                f'<text x="{at[0]:g}" y="{at[1]:g}" font-size="10" stroke="#fff" stroke-width="3" '
                f'paint-order="stroke">{words}</text>\n'
            )
