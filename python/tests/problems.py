"""Random problems of all kinds, as texts, and their digests."""

import math
import random

COLOURS = ["a", "b", "red", "x:y", "|"]


def problem_of(rng: random.Random, kind: int, items: int = 7, options: int = 18, share: float = 0.3) -> bytes:
    """A problem's text, with at most so many primary items and options, which hold this share of the items."""
    primary = [f"i{n}" for n in range(rng.randint(1, items))]
    secondary = [f"s{n}" for n in range(rng.randint(0, 4))]
    tokens = []
    for name in primary:
        if kind < 3 or rng.random() < 0.5:
            tokens.append(rng.choice([name, "1|" + name, "1:1|" + name]) if kind == 3 else name)
        else:
            low = rng.randint(0, 2)
            tokens.append(f"{low}:{rng.randint(max(low, 1), 3)}|{name}")
    bar = rng.choice([" | ", " |"]) + " ".join(secondary) if secondary else ""
    lines = ["| a comment"] if rng.random() < 0.3 else []
    lines.append("\t".join(tokens) + bar)
    for _ in range(rng.randint(0, options)):
        uses = [name for name in primary if rng.random() < share]
        for name in secondary:
            if rng.random() < share:
                is_coloured = kind > 1 and rng.random() < 0.7
                uses.append(name + (":" + rng.choice(COLOURS) if is_coloured else ""))
        rng.shuffle(uses)
        lines.append(rng.choice(["", " "]) + " ".join(uses) + rng.choice(["", "", "\r"]))
        if rng.random() < 0.05:
            lines.append(rng.choice(["", "| i0 is a comment"]))
    return ("\n".join(lines) + rng.choice(["\n", "\n", ""])).encode()


def numbers_of(problem: bytes) -> list[int]:
    """What a text without fault stands for, as numbers: the bounds of the primary items, the names of all items, the
    colours in the order in which options have them first, and the options. Each list comes after its length, and a use
    is one number."""
    lines = [line for line in problem.split(b"\n") if line.strip() and not line.lstrip().startswith(b"|")]
    bounds: list[list[int]] = []
    places: dict[bytes, int] = {}
    is_primary = True
    for token in lines[0].replace(b" |", b" | ").replace(b"\t|", b" | ").split():
        if token == b"|":
            is_primary = False
            continue
        given, _, name = token.rpartition(b"|")
        places[name] = len(places) + 1
        if is_primary:
            low, _, high = (given or b"1").rpartition(b":")
            bounds.append([int(low or high), int(high)])
    colours: dict[bytes, int] = {}
    options = []
    for line in lines[1:]:
        uses = [word.partition(b":") for word in line.split()]
        if any(places[name] <= len(bounds) for name, _, _ in uses):
            found = (colours.setdefault(colour, len(colours) + 1) if colour else 0 for _, _, colour in uses)
            options.append([places[name] + (number << 32) for (name, _, _), number in zip(uses, found)])
    numbers = [len(bounds), *(number for pair in bounds for number in pair)]
    for parts in (list(places), list(colours), options):
        numbers += [len(parts), *(number for part in parts for number in (len(part), *part))]
    return numbers


def digest_of(problem: bytes) -> str:
    """A problem's digest, as the texts of its spans have it: its numbers hashed by folded multiplication."""
    state = 0x243F6A8885A308D3
    for number in numbers_of(problem):
        product = (state ^ number) * 0x9E3779B97F4A7C15
        state = product % 2**64 ^ product >> 64
    return f"{state:016x}"


def narrow(rng: random.Random, queens: int) -> bytes:
    """A problem whose solutions are those of some queens, in a narrow place of its tree.

    Some items before them have up to 11 branches, of which all but one lead nowhere. So each solution is the last of
    more branches than the numbers of a processor distinguish.
    """
    gates = []
    while math.prod(gates) < 10 ** rng.uniform(13.5, 30):
        gates.append(rng.randint(2, 11))
    primary = [f"{name}{n}" for names, count in (("gz", len(gates)), ("rc", queens)) for name in names for n in range(count)]
    secondary = [f"y{n}" for n in range(len(gates))] + [f"{name}{n}" for name in "ab" for n in range(2 * queens)]
    lines = [" ".join([*primary, "|", *secondary])]
    for n, branches in enumerate(gates):
        good = rng.randrange(branches)
        lines += [f"g{n} z{n}" if branch == good else f"g{n} y{n}" for branch in range(branches)]
        # More than any gate has, so that the gate is the branch item.
        lines += [f"z{n} y{n}"] * 12
    lines += [f"r{x} c{y} a{x + y} b{x - y + queens}" for x in range(queens) for y in range(queens)]
    return ("\n".join(lines) + "\n").encode()
