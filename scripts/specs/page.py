"""The page of what has to be believed of ten calls."""
from collections.abc import Iterable, Iterator, Sequence

from specs.entries import Entry, Key, figures
from specs.repository import Repository
from specs.report import counted

CALLS = ["solve", "judge", "run_over_links", "check", "solve_span", "join_spans", "count", "count_covers"]
CALLS += ["has_no_cover", "show_none"]

HEAD = """# What has to be believed

This page has what the promises of ten public calls depend on: `solve`, a whole run of a solver; `judge`, a whole
run of the judge; `run_over_links`, a run that returns its tables; `check`, the verdicts on a listing; `solve_span`, a
whole run over a span of a listing; `join_spans`, a whole run that joins spans; `count`, the number of covers;
`count_covers`, a whole run that counts; `has_no_cover`, the judge of a proof that there is none; `show_none`, a whole
run of that judge. A function builds only with a proof that its body keeps its contract, so you need not read the code
or the proofs. The contract says what is proved, in the words of the definitions below it. If you have read these and
they say what is meant, what is left to trust is what README lists under "What is trusted". What no contract says is
not proved.

A definition comes after those that it cites, and each comes once: a call further down lists what it needs from
above. A word whose type ends in `Type 0` makes a statement: `×` joins two that hold, of `⊎` one does, `(x : A) × ..`
says that there is such an x, `(x : A) → ..` that it is so for each, `≡` that two values are equal. `λ x. ..` is a
function. `x.old` and `x.new` are a value before and after the call, `x.now` one that it doesn't change, `xs.items`
the members of a vector. Words that are not on this page are those of the toolchain's standard library.

`make believed` makes the page from the sources, and `make test-docs` fails if it differs from them.
`scripts/believed NAME` prints the same of any public call, and `scripts/believed` counts."""


def page(repository: Repository) -> Iterator[str]:
    yield from (" ".join(paragraph.split("\n")) + "\n" for paragraph in HEAD.split("\n\n"))
    # Of two libraries that have a call of the name, the upper one.
    calls = [repository.calls_named(name)[-1] for name in CALLS]
    for call in calls:
        yield f"- [`{call.name}`](#{call.name}) reaches {counted(figures(repository.reached([call])))}."
    yield ""
    above: set[Key] = set()
    for call in calls:
        yield from part(repository, call, above)
        above.update(one.key for one in repository.reached([call]))


def part(repository: Repository, call: Entry, above: set[Key]) -> Iterator[str]:
    """A call's part of the page. `above` has what the parts before it show."""
    reached = repository.reached([call])
    new = [one for one in reached if one.key not in above]
    yield f"## `{call.name}`\n"
    old = [one for one in reached if one.key in above]
    of_old = f"; {figures(old).many} of them are above" if old else ""
    yield f"`{inside(call.path)}`. It reaches {counted(figures(reached))}{of_old}.\n"
    yield from fenced("rust", call.text)
    yield from from_above(repository, old, above)
    code = repository.code_in_order(new)
    yield from declarations("The traits whose members it names", (one for one in code if one.has_contract))
    yield from declarations("The types that it or its definitions name", (one for one in code if not one.has_contract))
    for module, definitions in repository.definitions_in_order(new):
        yield f"### {module.sentence.rstrip('.')} (`{inside(module.path)}`)\n"
        yield from fenced("text", in_turn([*one.comment, *one.text] for one in definitions))


def declarations(title: str, entries: Iterable[Entry]) -> Iterator[str]:
    lines = in_turn([f"// {inside(one.path)}", *one.text] for one in entries)
    if lines:
        yield f"### {title}\n"
        yield from fenced("rust", lines)


def in_turn(texts: Iterable[Sequence[str]]) -> list[str]:
    """Texts one after another, with an empty line between."""
    return [line for text in texts for line in ["", *text]][1:]


def from_above(repository: Repository, entries: Sequence[Entry], above: set[Key]) -> Iterator[str]:
    """What a call reaches of what is above: all that is shown of a file, or which of it."""
    if not entries:
        return
    yield "### What it needs from above\n"
    yield f"- of the code: {listed(repository.code_in_order(entries))}"
    for module, definitions in repository.definitions_in_order(entries):
        is_all = len(definitions) == sum(one.key in above for one in module.definitions)
        what = "all that is shown of it" if is_all and len(definitions) > 3 else listed(definitions)
        yield f"- `{inside(module.path)}`: {what}"
    yield ""


def listed(entries: Sequence[Entry]) -> str:
    return ", ".join(f"`{one.name}`" for one in entries)


def inside(path: str) -> str:
    return path[len("crates/"):]


def fenced(word: str, lines: Sequence[str]) -> list[str]:
    return [f"```{word}", *lines, "```", ""]
