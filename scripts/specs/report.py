"""What is reported of the calls: their figures, all that one reaches, and what is wrong with the definitions."""
from collections.abc import Iterator

from specs.definitions import BELIEVED, NOT_BELIEVED, Module, is_table
from specs.entries import Entry, Figures, figures
from specs.repository import Repository

LONGEST = 12
WIDEST = 120


def counted(sums: Figures) -> str:
    worked = f", and {sums.worked} of worked examples, {sums.worked_lines} lines" if sums.worked else ""
    return f"{sums.many} definitions of {sums.lines} lines{worked}"


def table(repository: Repository) -> Iterator[str]:
    """A row for each public call, and the sums by crate."""
    row = "{:46} {:>11} {:>6}"
    for crate in repository.crates:
        yield row.format(crate, "definitions", "lines")
        for call in repository.calls:
            if call.key[0] == crate:
                sums = figures(repository.reached([call]))
                yield row.format("  " + call.name, sums.many, sums.lines)
        yield ""
    yield from sums_by_crate(repository)


def sums_by_crate(repository: Repository) -> Iterator[str]:
    """What the public calls reach, by files, and all that is in these files."""
    reached = repository.reached(repository.calls)
    row = "{:46} {:>11} {:>6} {:>8} {:>6} {:>9} {:>6}"
    yield row.format("reached from the public calls", "definitions", "lines", "worked", "lines", "in specs", "lines")
    for crate in [*repository.crates, "all"]:
        home = "" if crate == "all" else f"crates/{crate}/"
        sums = figures(one for one in reached if one.path.startswith(home))
        whole = figures(one for one in repository.entries.values() if one.path.startswith(home))
        yield row.format("  " + crate, *sums, whole.many + whole.worked, whole.lines + whole.worked_lines)


def all_of(repository: Repository, call: Entry) -> Iterator[str]:
    """A call, and all that its contract reaches, as it is in the sources."""
    reached = repository.reached([call])
    yield f"==== {call.name}: {counted(figures(reached))}"
    yield ""
    for one in [call, *repository.code_in_order(reached)]:
        yield from [f"// {one.path}:{one.line}", *one.text, ""]
    for module, definitions in repository.definitions_in_order(reached):
        yield from [f"---- {module.path}: {module.sentence}", ""]
        for one in definitions:
            yield from [*one.comment, *one.text, ""]


def wrong(repository: Repository) -> Iterator[str]:
    """What is wrong with the definitions, a line each."""
    reached = {one.key for one in repository.reached(repository.calls)}
    for module in repository.modules.values():
        yield from faults_of_head(module, any(one.key in reached for one in module.definitions))
        for one in module.definitions:
            for fault in faults_of(one, one.key in reached):
                yield f"{one.path}:{one.line}: {one.name}: {fault}"


def faults_of_head(module: Module, is_reached: bool) -> Iterator[str]:
    """What is wrong with the head of a file, which `Lib.antt` has none of."""
    if module.path.endswith("/specs/Lib.antt"):
        return
    if not module.sentence:
        yield f"{module.path}:1: no sentence stands at its head"
    wanted = BELIEVED if is_reached else NOT_BELIEVED
    if module.last_line != wanted:
        yield f"{module.path}:1: the last line of its head isn't: {wanted}"


def faults_of(entry: Entry, is_reached: bool) -> Iterator[str]:
    if entry.is_inner:
        if is_reached:
            yield "a public contract reaches it, and it stands among those that need not be believed"
        return
    if not is_reached:
        yield "no public contract reaches it, and it stands among those that have to be believed"
    if not entry.sentence:
        yield "no sentence stands above it"
    if entry.size > LONGEST and not entry.is_worked and not is_table(entry):
        yield f"it has {entry.size} lines, and {LONGEST} are the most"
    if any(len(line) > WIDEST for line in entry.comment + entry.text):
        yield f"a line is wider than {WIDEST} columns"
