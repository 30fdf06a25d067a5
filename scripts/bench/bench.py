#!/usr/bin/env python3
"""bench.py FOLDER [--ours FOLDER] [--c NAME=FOLDER].. [--c-alone] [--repeat K] [--core C] [--only NAME,..]
         [--most SECONDS] [--page PAGE]

Counts the solutions of the problems that problems.py wrote into FOLDER, by the programs that `make all` built or those
in the folder given by --ours and, beside them, by other solvers: C programs dlx1, dlx2 and dlx3 in each folder given
by --c, and, where they are installed, clasp and Gecode (fzn-gecode), as 0-1 problems that are made from the same texts,
and Sage's dancing links (sage), for problems of kind 1. All take turns, on one core where --core gives its number. Told
are ratios of CPU time, ours to theirs, of the least of K runs (3), or of at most 3 where one of each took more than 15
seconds together: below 1 ours is faster. (What else a host does only adds to a run.) A run of theirs may take so many
seconds (60); where it takes longer, the ratio is at most the one told. --c-alone leaves all but C out. Then come the
ratios of the most memory held, and how time and memory grow with the problem. Each run has to end with the problem's
number of solutions. With --page the tables take the places of those with the same heads in a page, once all are there.
"""

import argparse
import os
import re
import resource
import shutil
import subprocess
import sys
import tempfile
from collections import defaultdict

import problems
from instructions import mean
from page import put

HERE = os.path.dirname(os.path.abspath(__file__))
TOP = os.path.dirname(os.path.dirname(HERE))


MEAN = "geometric mean"
# Of turns of more than so many seconds of CPU time so few are taken.
LONG, FEW = 15, 3


class CommandRun:
    def __init__(self, command, most, text=None):
        """Runs a command over a file; `seconds` is None where it took too long."""
        self.seconds, self.memory, self.output = None, None, ""
        with tempfile.TemporaryFile() as told, open(text or os.devnull) as given:
            process = subprocess.Popen(command, stdin=given, stdout=told, stderr=told, preexec_fn=limits(most))
            _, status, used = os.wait4(process.pid, 0)
            process.returncode = 0
            told.seek(0)
            self.output = told.read().decode("latin-1")
        # Some solvers take the signal at the limit and end by themselves.
        if not os.WIFSIGNALED(status) and used.ru_utime + used.ru_stime < most - 0.5:
            self.seconds = used.ru_utime + used.ru_stime
            self.memory = used.ru_maxrss


def limits(most):
    return lambda: resource.setrlimit(resource.RLIMIT_CPU, (most, most + 1))


class Exact:
    """A program that reads the problem as it stands."""

    kinds = (1, 2, 3)

    def __init__(self, name, folder):
        self.name, self.folder = name, folder

    def run(self, problem, text, most):
        program = os.path.join(self.folder.format(problem.kind), f"dlx{problem.kind}")
        done = CommandRun([program], most, text)
        return done, re.search(r"^Altogether (\d+) ", done.output, re.M)


def linear(text):
    """The problem as sums of 0-1 variables: their number, and for each sum its variables with signs, least and most.

    A variable stands for an option, and one for each colour of a secondary item; a use without a colour is as one
    that no other option has. At most one colour of an item is taken, exactly where an option with it is.
    """
    lines = [line.split() for line in open(text) if line.strip() and not line.lstrip().startswith("|")]
    bar = lines[0].index("|") if "|" in lines[0] else len(lines[0])
    bounds = {}
    for token in lines[0][:bar]:
        given, _, name = token.rpartition("|")
        low, high = ((given or "1").split(":") * 2)[:2]
        bounds[name] = int(low), int(high)
    options, count = lines[1:], len(lines) - 1
    holding, colours = defaultdict(list), defaultdict(lambda: defaultdict(list))
    for o, option in enumerate(options, 1):
        for use in option:
            if use in bounds:
                holding[use].append(o)
            else:
                item, _, colour = use.partition(":")
                colours[item][colour or o].append(o)
    sums = [([(1, o) for o in holding[name]], low, high) for name, (low, high) in bounds.items()]
    for item in colours.values():
        taken = []
        for held in item.values():
            if len(held) == 1:
                taken.append(held[0])
                continue
            count += 1
            taken.append(count)
            sums += [([(1, count), (-1, o)], 0, 1) for o in held]
            sums.append(([(1, o) for o in held] + [(-1, count)], 0, len(held)))
        sums.append(([(1, v) for v in taken], 0, 1))
    return count, [(terms, low, high) for terms, low, high in sums if terms or low > 0]


class Clasp:
    name, kinds = "clasp", (1, 2, 3)

    def run(self, problem, text, most):
        count, sums = linear(text)
        with tempfile.NamedTemporaryFile("w", suffix=".opb") as file:
            print(f"* #variable= {count} #constraint= {2 * len(sums)}", file=file)
            for terms, low, high in sums:
                print("".join(f"{s:+} x{v} " for s, v in terms), ">=", low, ";", file=file)
                print("".join(f"{-s:+} x{v} " for s, v in terms), ">=", -high, ";", file=file)
            file.flush()
            done = CommandRun(["clasp", "-n", "0", "-q", file.name], most)
        return done, re.search(r"^c Models\s*: (\d+)\s*$", done.output, re.M)


class Gecode:
    name, kinds = "Gecode", (1, 2, 3)

    def run(self, problem, text, most):
        count, sums = linear(text)
        with tempfile.NamedTemporaryFile("w", suffix=".fzn") as file:
            for v in range(1, count + 1):
                print(f"var bool: b{v};\nvar 0..1: x{v} :: output_var;", file=file)
            for v in range(1, count + 1):
                print(f"constraint bool2int(b{v}, x{v});", file=file)
            for terms, low, high in sums:
                names = ",".join(f"x{v}" for _, v in terms)
                for sign, bound in ((-1, -low), (1, high)):
                    factors = ",".join(str(sign * s) for s, _ in terms)
                    print(f"constraint int_lin_le([{factors}],[{names}],{bound});", file=file)
            print("solve satisfy;", file=file)
            file.flush()
            done = CommandRun(["fzn-gecode", "-n", "0", "-s", file.name], most)
        return done, re.search(r"^%%%mzn-stat: solutions=(\d+)", done.output, re.M)


class Sage:
    """Sage's start is long, so its script tells the time behind it."""

    name, kinds = "Sage", (1,)

    def run(self, problem, text, most):
        done = CommandRun(["sage", "-python", os.path.join(HERE, "sage_count.py"), text], most)
        told = re.search(r"^Seconds: ([0-9.]+)$", done.output, re.M)
        if done.seconds is not None and told:
            done.seconds = float(told.group(1))
        return done, re.search(r"^Solutions: (\d+)$", done.output, re.M)


def measured(solver, problem, text, most, times, memory):
    done, found = solver.run(problem, text, most)
    if done.seconds is None:
        return False
    if not found or int(found.group(1)) != problem.count:
        raise SystemExit(f"{solver.name} on {problem.name}: {done.output[-200:]!r}")
    times.append(done.seconds)
    memory.append(done.memory)
    return True


def turns(repeat):
    """So many turns, or fewer of long ones, whose times are steadier."""
    start = os.times()
    for turn in range(repeat):
        yield turn
        took = sum(os.times()[2:4]) - sum(start[2:4])
        if turn + 1 >= FEW and took > (turn + 1) * LONG:
            return


def compare(folder, ours, in_c, installed, only, repeat, most):
    """The tables of ratios, a row for each problem: one of all solvers in C, and one of each other solver."""
    found = {}
    for problem in problems.PROBLEMS:
        solvers = [s for s in (ours, *in_c, *installed) if problem.kind in s.kinds]
        if len(solvers) > 1 and (not only or problem.name in only):
            found[problem] = one_problem(folder, problem, solvers, repeat, most)
    if in_c:
        yield table(["Problem", "Program"], in_c, found, [MEAN, f"memory, {MEAN}"])
    for solver in installed:
        cells = {problem: ratios for problem, ratios in found.items() if problem.kind in solver.kinds}
        yield table(["Problem"], [solver], cells, [MEAN])


def one_problem(folder, problem, solvers, repeat, most):
    """By each solver's name its ratio as it is written, and where the time is long enough that and the memory's."""
    text = os.path.join(folder, problem.name + ".dlx")
    times, memory = defaultdict(list), defaultdict(list)
    ours, late = solvers[0], set()
    for _ in turns(repeat):
        for solver in solvers:
            limit = 3600 if solver is ours else most
            if solver.name not in late and not measured(
                solver, problem, text, limit, times[solver.name], memory[solver.name]
            ):
                late.add(solver.name)
    own = min(times[ours.name])
    found = {}
    for other in solvers[1:]:
        if other.name in late:
            found[other.name] = f"< {own / most:.3f}", None, None
            continue
        ratio = max(own, 0.001) / max(min(times[other.name]), 0.001)
        is_long = own >= 0.01
        found[other.name] = (
            f"{ratio:.2f}" if ratio >= 0.1 else f"{ratio:.3f}",
            ratio if is_long else None,
            max(memory[ours.name]) / max(memory[other.name]) if is_long else None,
        )
    seconds = ", ".join(f"{s.name} {min(times[s.name]):.2f} s" for s in solvers if s.name not in late)
    print(f"{problem.name}: {seconds}", file=sys.stderr, flush=True)
    return found


def table(head, others, found, means):
    lines = line(head + [other.name for other in others])
    for problem, cells in found.items():
        start = [problem.name, f"`dlx{problem.kind}`"][: len(head)]
        lines += line(start + [cells[other.name][0] for other in others])
    for k, title in enumerate(means, 1):
        ratios = [[cells[other.name][k] for cells in found.values() if cells[other.name][k]] for other in others]
        lines += line([f"**{title}**", ""][: len(head)] + [f"{mean(r):.2f}" if r else "" for r in ratios])
    return lines[:1] + ["|" + "---|" * (len(head) + len(others))] + lines[1:]


def line(cells):
    return ["|" + "|".join(f" {cell} " if cell else " " for cell in cells) + "|"]


def grow(ours, in_c, most):
    """How time and memory for each use grow from 100,000 uses to 10,000,000, nearly all of it reading."""
    solvers = [ours, *in_c]
    lines = line(["Uses"] + [f"{s.name}: {what} a use" for s in solvers for what in ("time", "memory")])
    # The name stands once.
    lines = [re.sub(r"(\| (\w+): time a use) \| \2: ", r"\1 | ", lines[0])] + ["|---|" + "---|---|" * len(solvers)]
    first = {}
    with tempfile.NamedTemporaryFile("w") as file:
        for options in (10000, 100000, 1000000):
            file.seek(0)
            file.truncate()
            print("A B | " + " ".join(f"x{k}" for k in range(9)), file=file)
            for o in range(options - 1):
                print("A " + " ".join(f"x{k}" for k in range(9)), file=file)
            print("B", file=file)
            file.flush()
            cells = []
            for solver in solvers:
                done = CommandRun([os.path.join(solver.folder.format(1), "dlx1")], most, file.name)
                now = done.seconds / options, done.memory / options
                cells += [f"{a / b:.2f}" for a, b in zip(now, first.setdefault(solver.name, now))]
            lines += line([str(10 * options), *cells])
    return lines


def main():
    parser = argparse.ArgumentParser(description=__doc__, formatter_class=argparse.RawDescriptionHelpFormatter)
    parser.add_argument("folder")
    parser.add_argument("--ours", default=os.path.join(TOP, "crates", "dlx{0}", "out"))
    parser.add_argument("--c", action="append", default=[], type=lambda word: word.rpartition("=")[::2])
    parser.add_argument("--c-alone", action="store_true")
    parser.add_argument("--repeat", type=int, default=3)
    parser.add_argument("--core", type=int)
    parser.add_argument("--only", default="")
    parser.add_argument("--most", type=int, default=60)
    parser.add_argument("--page")
    given = parser.parse_args()
    if given.core is not None:
        os.sched_setaffinity(0, {given.core})
    ours = Exact("ours", given.ours)
    in_c = [(name, os.path.abspath(folder)) for name, folder in given.c]
    in_c = [Exact(name or os.path.basename(folder), folder) for name, folder in in_c]
    installed = (Clasp(), "clasp"), (Gecode(), "fzn-gecode"), (Sage(), "sage")
    installed = [solver for solver, program in installed if shutil.which(program) and not given.c_alone]
    only = set(filter(None, given.only.split(",")))
    made = []
    for lines in compare(given.folder, ours, in_c, installed, only, given.repeat, given.most):
        made.append(lines)
        print("\n".join(lines), end="\n\n", flush=True)
    # The page has no table of growth.
    if in_c:
        print("\n".join(grow(ours, in_c, given.most)), flush=True)
    for lines in made if given.page else ():
        put(given.page, lines)


if __name__ == "__main__":
    main()
