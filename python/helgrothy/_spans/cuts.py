"""Rows at which a search may be cut, for queues that run programs and nothing else."""

from __future__ import annotations

import heapq
import time

from . import record as records
from .rows import PARTS, WHOLE, Row, place, word_of
from .span import Task, run

_SECONDS = 1.0
_Node = tuple[float, Row, Row]


def rows(problem: bytes, kind: int, count: int, seconds: float = _SECONDS) -> list[Row]:
    """Up to so many rows, rising, that cut the tree into shares as equal as can be seen within that time.

    The node of the largest share is looked at first: a run of one step gives the number of its branches. Raises
    `ProgramFailed`, `ProgramNotFound` and `SearchFault`.
    """
    deadline = time.monotonic() + seconds
    # Nodes that may be looked at, the largest first: the share, the row, and the branches of its levels.
    open_nodes: list[_Node] = [(-1.0, (), ())]
    leaves: dict[Row, Row] = {(): ()}
    while open_nodes and len(leaves) <= _ENOUGH * count and time.monotonic() < deadline:
        share, row, branches = heapq.heappop(open_nodes)
        below = _branches(problem, kind, row, len(row))
        if below < 1:
            continue
        del leaves[row]
        for k in range(1, below + 1):
            leaves[(*row, k)] = (*branches, below)
            heapq.heappush(open_nodes, (share / below, (*row, k), (*branches, below)))
    edges = sorted((row, place(row, branches)) for row, branches in leaves.items())[1:]
    return _even(edges, count)


# Of so many nodes for each row that is wanted the best are taken.
_ENOUGH = 4


def _branches(problem: bytes, kind: int, row: Row, level: int) -> int:
    """The branches of the node at a row, or 0 where there is none or it is a solution."""
    task = Task(kind=kind, listed=False, problem=problem, start=word_of(row), until="-", steps=1, most=0)
    record = records.of_text(run(task).text, WHOLE._replace(start=row), listed=False)
    stop = record.until or ()
    return record.branches[level] if len(stop) > level and stop[:level] == row else 0


def _even(edges: list[tuple[Row, int]], count: int) -> list[Row]:
    """So many of the rows, whose places are as even as can be."""
    if len(edges) <= count:
        return [row for row, _ in edges]
    taken: list[Row] = []
    for number, (row, at) in enumerate(edges):
        is_due = at * (count + 1) >= (len(taken) + 1) * PARTS
        if len(taken) < count and (is_due or len(edges) - number <= count - len(taken)):
            taken.append(row)
    return taken
