"""What may befall a search. Each takes a try; it answers False where it was left out."""

import os
import resource
import shutil
import signal
import socket
import subprocess
import tempfile
import time
from collections import Counter

from .texts import Refused, joined, rows_in
from .trial import CANT, LONG, MOST_JOBS, NOT_DONE, TOP, Look, Wrong, digest_of, queens

KILLS = [signal.SIGKILL, signal.SIGTERM, signal.SIGINT, signal.SIGHUP]


def nothing(trial):
    trial.finish()


def seconds(trial):
    for _ in range(20):
        status = trial.run("--seconds", str(trial.rng.choice([0.01, 0.2, 0.5, 1])))[0]
        if status == 0:
            return
        if status != NOT_DONE:
            raise Wrong(f"status {status}")
        looks(trial)
    trial.finish()


def command_is_killed(trial):
    for _ in range(trial.rng.randint(1, 4)):
        process = trial.start(trial.words())
        time.sleep(trial.rng.choice([trial.rng.uniform(0, 0.4), trial.rng.uniform(0.3, 2)]))
        trial.kill(process, trial.rng.choice(KILLS))
        if trial.end(process, may_be_killed=True)[0] == 0:
            return
        trial.leaves_none()
    trial.finish()


def killed_as_it_begins(trial):
    """In the moments in which the folder is made, as it is or an empty one that was there."""
    for _ in range(8):
        if trial.rng.random() < 0.3 and not os.path.lexists(trial.folder):
            os.mkdir(trial.folder)
        process = trial.start(trial.words())
        until = time.monotonic() + 20
        while not os.path.isdir(trial.folder) and process.poll() is None and time.monotonic() < until:
            time.sleep(0.0005)
        time.sleep(trial.rng.choice([0, trial.rng.uniform(0, 0.03)]))
        trial.kill(process, signal.SIGKILL)
        if trial.end(process, may_be_killed=True)[0] == 0:
            return
    trial.finish()


def folders_of_others(trial):
    """Files that a user may have, some with names like the command's own, stay as they are; so does the folder."""
    if os.path.lexists(trial.folder):
        raise Wrong("there is a folder already")
    names = ["thesis.tex", "20261128.tmp", "search.tmp", "problem.dlx.tmp", "problem.dlx", "lock", "search", "notes",
             "00000001.span", "00000001.tmp", "helgrothy", "helgrothy.search.old"]
    os.mkdir(trial.folder)
    for name in trial.rng.sample(names, trial.rng.randint(1, 4)):
        with open(os.path.join(trial.folder, name), "wb") as file:
            file.write(trial.rng.choice([b"", b"mine\n", b"span ", trial.text]))
    before = contents(trial.folder)
    trial.say(f"a folder of {', '.join(before)}")
    status, printed, told = trial.end(trial.start(trial.words()))
    if (status, printed) != (CANT, b"") or b"no folder of a search, and isn't empty" not in told:
        raise Wrong(f"status {status} in another one's folder")
    if contents(trial.folder) != before:
        raise Wrong(f"the folder was {before} and is {contents(trial.folder)}")
    # The same files in a folder of a search.
    shutil.rmtree(trial.folder)
    status = trial.some_way()
    if status == 0 or not trial.has_begun():
        return
    mine = {name: text for name, text in before.items() if name not in ("problem.dlx", "00000001.span")}
    for name, text in mine.items():
        with open(os.path.join(trial.folder, name), "xb") as file:
            file.write(text)
    status, _, _ = trial.run()
    if status != 0 or (contents(trial.folder) if mine else {}) != mine:
        raise Wrong(f"status {status}; the user's files were {mine}")


def contents(folder):
    found = {}
    for name in sorted(os.listdir(folder)):
        with open(os.path.join(folder, name), "rb") as file:
            found[name] = file.read()
    return found


def group_is_interrupted(trial):
    """As by ^C in a terminal."""
    process = trial.start(trial.words())
    time.sleep(trial.rng.uniform(0.2, 1.5))
    if process.poll() is None:
        os.killpg(process.pid, signal.SIGINT)
    begun = trial.spans_begun()
    if trial.end(process, may_be_killed=True)[0] != 0:
        # Each worker may have been about to begin one.
        if trial.spans_begun() > begun + 2 * MOST_JOBS:
            raise Wrong("it didn't stop at once")
        trial.finish()


def interrupted_late(trial):
    """Of what the programs have done little is in no record, after ^C, SIGTERM or the end of the time."""
    trial.kind, trial.listed, trial.text = 1, False, queens.problem(20).text.encode()
    trial.write(trial.text)
    trial.stand_in(f'#!/bin/sh\nexec {shutil.which("dlx-span")} "$@"\n')
    seconds, jobs = trial.rng.uniform(3, 15), trial.rng.randint(1, MOST_JOBS)
    way = trial.rng.choice([signal.SIGINT, signal.SIGTERM, None])
    words = ["search", trial.path, "--jobs", str(jobs), *(["--seconds", str(seconds)] if way is None else [])]
    process = trial.start(words)
    if way is not None:
        while not trial.has_begun() and process.poll() is None:
            time.sleep(0.01)
        time.sleep(seconds)
        os.killpg(process.pid, way)
    told = process.stderr.read()
    used = os.wait4(process.pid, 0)[2]
    process.returncode = 0
    if way is None and not trial.has_begun():
        return False
    kept = sum(entry.seconds for entry in Look(trial.folder).entries.values())
    lost = used.ru_utime + used.ru_stime - kept
    trial.say(f"{jobs} workers, {seconds:.1f} seconds, {way}: {lost:.2f} of {kept + lost:.2f} are lost; {told!r}")
    # Python itself takes some, and where the steps are slower than those before them a span takes longer.
    if b"the same command goes on" not in told or lost > 1 + 1.5 * jobs:
        raise Wrong("much is lost")


def workers_are_killed(trial):
    process = trial.start(trial.words())
    until = time.monotonic() + trial.rng.uniform(0.3, 2)
    killed = 0
    while process.poll() is None and time.monotonic() < until:
        for number in trial.programs(trial.rng.choice([b"dlx-span", b"dlx-span", b"dlx-"])):
            if trial.rng.random() < 0.3:
                try:
                    os.kill(number, trial.rng.choice([signal.SIGKILL, signal.SIGTERM]))
                    killed += 1
                except OSError:
                    pass
        time.sleep(trial.rng.uniform(0.01, 0.2))
    trial.say(f"{killed} programs killed")
    if trial.end(process, may_be_killed=True)[0] != 0:
        trial.finish()


def stopped_and_continued(trial):
    process = trial.start(trial.words())
    for _ in range(4):
        time.sleep(trial.rng.uniform(0.05, 0.5))
        stopped = [n for n in [process.pid, *trial.programs()] if trial.rng.random() < 0.5]
        for signals in (signal.SIGSTOP, signal.SIGCONT):
            for number in stopped:
                try:
                    os.kill(number, signals)
                except OSError:
                    pass
            time.sleep(trial.rng.uniform(0, 0.3))
    if trial.end(process)[0] != 0:
        raise Wrong("it isn't done")


def two_commands(trial):
    both = []
    for _ in range(2):
        both.append(trial.start(trial.words()))
        time.sleep(trial.rng.choice([0, 0, 0.1, 0.8]))
    ended = [trial.end(process) for process in both]
    if all(status != 0 for status, _, _ in ended):
        raise Wrong("both were refused")
    for status, printed, told in ended:
        if status not in (0, CANT) or status == CANT and (printed or b"another command is at work" not in told):
            raise Wrong(f"status {status}")
    trial.finish()


def full_disk(trial):
    """Files of a size, or a disk of a size where one may be mounted."""
    small = os.path.join(trial.top, "small")
    os.mkdir(small)
    size = trial.rng.choice([0, 100, 300, 5_000, 20_000, 100_000])
    is_mounted = trial.rng.random() < 0.5 and mount(small, max(size, 8192))
    words = trial.words("--folder", os.path.join(small, "found"))
    try:
        status = trial.end(trial.start(words, size=None if is_mounted else size))[0]
        if status not in (0, 2, 3):
            raise Wrong(f"status {status}")
        if is_mounted:
            subprocess.run(["mount", "-o", "remount,size=200m", small], check=True)
        if status != 0 and trial.end(trial.start(words))[0] != 0:
            raise Wrong("it doesn't go on where there is room")
        result(trial, os.path.join(small, "found"), must_be_done=True)
    finally:
        if is_mounted:
            subprocess.run(["umount", small], check=True)


def mount(folder, size):
    how = ["mount", "-t", "tmpfs", "-o", f"size={size}", "tmpfs", folder]
    return os.geteuid() == 0 and subprocess.run(how, stderr=subprocess.DEVNULL).returncode == 0


def few_to_be_had(trial):
    """Many workers, and few open files or little memory."""
    words = [word for word in trial.words() if not word.isdigit() and word != "--jobs"]
    files = resource.RLIMIT_NOFILE, trial.rng.randint(16, 100)
    limit = trial.rng.choice([files, (resource.RLIMIT_AS, trial.rng.randint(60, 400) << 20)])
    status = trial.end(trial.start([*words, "--jobs", str(trial.rng.choice([4, 40, 400]))], limit=limit))[0]
    if status not in (0, 2, 3, 4):
        raise Wrong(f"status {status}")
    trial.say("it was done" if status == 0 else "it wasn't done")
    if status != 0:
        trial.finish()


def full_output(trial):
    with open("/dev/full", "wb") as full:
        process = trial.start(trial.words(), stdout=full)
        status = trial.end(process)[0] if not trial.listed else ended(trial, process)
    if trial.listed and (status == 0) != (not trial.whole[0]):
        raise Wrong(f"status {status} with a full disk for the listing")
    if status != 0:
        trial.finish()


def ended(trial, process):
    """The status of a command whose output isn't seen."""
    told = process.communicate()[1]
    trial.say(f"status {process.returncode}: {told!r}")
    if b"Traceback" in told:
        raise Wrong(told.decode())
    return process.returncode


def nobody_reads(trial):
    reader, writer = os.pipe()
    process = trial.start(trial.words(), stdout=writer)
    os.close(writer)
    if trial.rng.random() < 0.5:
        os.read(reader, 100)
    os.close(reader)
    status = ended(trial, process)
    if len(trial.whole[0]) > 1 << 16 and status == 0:
        raise Wrong("status 0, and nobody has read the listing")
    if status != 0:
        trial.finish()


def times_of_files(trial):
    """As after a clock has jumped."""
    if trial.some_way() == 0:
        return
    if os.path.isdir(trial.folder):
        for name in os.listdir(trial.folder):
            then = trial.rng.choice([0, 1, 4_000_000_000, time.time()])
            os.utime(os.path.join(trial.folder, name), (then, then))
    trial.finish()


def problem_changes(trial):
    changed = trial.text.rpartition(b"\n")[0].rpartition(b"\n")[0] + b"\n"
    process = trial.start(trial.words())
    while not os.path.exists(trial.folder) and process.poll() is None:
        time.sleep(0.02)
    time.sleep(trial.rng.uniform(0, 1))
    trial.write(changed)
    time.sleep(trial.rng.uniform(0, 0.5))
    if trial.rng.random() < 0.5:
        trial.kill(process, trial.rng.choice(KILLS))
    is_put_back = trial.rng.random() < 0.5
    if is_put_back:
        trial.write(trial.text)
    status = trial.end(process, may_be_killed=True)[0]
    if status != 0 and not is_put_back and trial.has_begun():
        # Reading passes over remarks and options without primary items: without such a last line the problem is the same.
        # An option that is passed over has a message, so the messages may be fewer.
        is_same = digest_of(changed) == digest_of(trial.text)
        whole = trial.whole_of(changed) if is_same else None
        status, printed, told = trial.end(trial.start(trial.words()), whole=whole)
        if is_same:
            if status != 0:
                raise Wrong("the same problem doesn't go on")
        elif status != CANT or printed or b"another problem" not in told:
            raise Wrong("a changed problem goes on")
    trial.write(trial.text)
    if status != 0:
        trial.finish()


def other_words(trial):
    if trial.some_way() == 0 or not trial.has_begun():
        return
    trial.listed = not trial.listed
    status, printed, told = trial.end(trial.start(trial.words()))
    if status != CANT or printed or trial.folder.encode() not in told:
        raise Wrong("another search goes on in the folder")
    trial.listed = not trial.listed
    trial.finish()


def files_are_damaged(trial):
    if trial.some_way() == 0 or not os.path.isdir(trial.folder):
        return
    names = [os.path.join(trial.folder, name) for name in os.listdir(trial.folder)]
    if not names:
        return trial.finish()
    for path in trial.rng.sample(names, min(len(names), trial.rng.choice([1, 1, 2]))):
        damage(trial, path)
    for act in trial.rng.sample([looks, lambda t: result(t, t.folder)], 2):
        act(trial)
    status, printed, told = trial.end(trial.start(trial.words()))
    if status == 0:
        return
    if status != CANT or trial.folder.encode() not in told:
        raise Wrong(f"status {status}, and no file is named")
    mend(trial)


def damage(trial, path):
    """Changes a file in one of many ways."""
    rng = trial.rng
    how = rng.choice(["bit", "bit", "cut", "more", "empty", "exchange", "copy", "link", "folder", "pipe", "socket",
                      "huge", "zero", "line", "digits", "gone"])
    trial.say(f"{os.path.basename(path)}: {how}")
    with open(path, "rb") as file:
        text = file.read()
    if how in ("bit", "cut", "more", "empty", "line", "digits"):
        at = rng.randrange(max(len(text), 1))
        if how == "bit" and text:
            text = text[:at] + bytes([text[at] ^ 1 << rng.randrange(8)]) + text[at + 1 :]
        elif how == "cut":
            text = text[:at]
        elif how == "more":
            text += rng.choice([b"\n", b"x", text])
        elif how == "line":
            lines = text.splitlines(True)
            rng.shuffle(lines)
            text = b"".join(lines)
        elif how == "digits":
            text = text.replace(*rng.sample([b"1", b"2", b"3", b"7", b"9"], 2))
        else:
            text = b""
        with open(path, "wb") as file:
            file.write(text)
        return
    others = trial.files()
    if how == "exchange" and len(others) > 1:
        one, other = rng.sample(others, 2)
        os.rename(one, f"{one}.x")
        os.rename(other, one)
        os.rename(f"{one}.x", other)
        return
    if how == "copy":
        shutil.copy(path, os.path.join(trial.folder, "00099999.span"))
        return
    os.remove(path)
    if how == "link":
        os.symlink(rng.choice(["/dev/zero", "/nowhere", path, "/etc/passwd"]), path)
    elif how == "folder":
        os.mkdir(path)
    elif how == "pipe":
        os.mkfifo(path)
    elif how == "socket":
        with socket.socket(socket.AF_UNIX) as made:
            made.bind(path)
    elif how == "huge":
        with open(path, "wb") as file:
            file.write(text)
            file.truncate(1 << 43)
    elif how == "zero":
        with open(path, "wb") as file:
            file.write(b"\0" * len(text))


def mend(trial):
    """What a user does who is told that files aren't as they should be: the named ones go, or all."""
    for _ in range(8):
        status, _, told = trial.end(trial.start(trial.words()))
        if status == 0:
            return
        named = [path for path in trial.files() if path.encode() in told] if os.path.isdir(trial.folder) else []
        if named:
            for path in named:
                trial.say(f"{os.path.basename(path)} is taken away")
                shutil.rmtree(path) if os.path.isdir(path) and not os.path.islink(path) else os.remove(path)
        else:
            trial.say("the folder is taken away")
            shutil.rmtree(trial.folder)
    raise Wrong("it doesn't go on without the files that were named")


def looks(trial):
    """`--status` tells something at any time."""
    if not os.path.isdir(trial.folder):
        return
    done = subprocess.run(["helgrothy", "search", "--status", trial.folder], capture_output=True, timeout=LONG)
    trial.say(f"status {done.returncode} of helgrothy search --status: {done.stdout!r} {done.stderr!r}")
    if b"Traceback" in done.stderr or done.returncode not in (0, 2) or (done.returncode == 0) != (done.stderr == b""):
        raise Wrong(f"helgrothy search --status: {done}")


def result(trial, folder, must_be_done=False):
    if not os.path.isdir(folder):
        return
    words = ["search", "--result", folder, *(["--list"] if trial.listed else [])]
    status, printed, _ = trial.end(trial.start(words))
    if status != 0 and (printed or must_be_done):
        raise Wrong(f"helgrothy search --result: {status}, {len(printed)} bytes")


def looked_at_while_it_runs(trial):
    process = trial.start(trial.words())
    while process.poll() is None:
        looks(trial)
        if trial.rng.random() < 0.3:
            result(trial, trial.folder)
    trial.end(process)
    trial.finish()


FAILING = """\
#!/bin/sh
read -r random _ </proc/sys/kernel/random/uuid
case $random in
[0-{often}]*) {what} ;;
*) exec {program} "$@" ;;
esac
"""
FAILURES = [
    "exit 3",
    "exit 4",
    "kill -9 $$",
    "exit 0",
    '{program} "$@" | head -c 40',
    '{program} "$@"; kill -11 $$',
    '{program} "$1" "$2" "$3" 1 "$5"',
    '{program} "$1" m0 "$3" "$4" -',
    '{program} "$@" | sed "\\$s/solutions [0-9]*/solutions x/"',
]


def programs_fail(trial):
    """Now and then or often; what gives a wrong text isn't the proved program, and is told by its record."""
    program = shutil.which("dlx-span")
    what = trial.rng.choice(FAILURES).format(program=program)
    trial.say(f"dlx-span: {what}")
    trial.stand_in(FAILING.format(often=trial.rng.choice([0, 2, 8]), what=what, program=program))
    if trial.end(trial.start(trial.words()), may_be_killed=True)[0] != 0:
        trial.stand_in(f'#!/bin/sh\nexec {program} "$@"\n')
        trial.finish()


def by_hand(trial):
    """Between rows, each by a program, and joined: as a queue does it that runs programs alone."""
    with open(trial.path, "rb") as given:
        count = str(trial.rng.choice([1, 5, 40]))
        words = ["helgrothy", "search", "-", "--rows", count, "--for", f"dlx{trial.kind}"]
        told = subprocess.run(words, stdin=given, capture_output=True)
    if told.returncode != 0 or told.stderr:
        raise Wrong(f"helgrothy search --rows: {told}")
    rows = told.stdout.decode().split()
    if [tuple(map(int, row.split("."))) for row in rows] != sorted({tuple(map(int, row.split("."))) for row in rows}):
        raise Wrong(f"rows don't rise: {rows}")
    words = "m1" if trial.listed else "m0"
    files = []
    for number, (start, until) in enumerate(zip(["-", *rows], [*rows, "-"])):
        files.append(os.path.join(trial.top, f"{number}.span"))
        with open(files[-1], "wb") as file:
            command = ["dlx-span", str(trial.kind), words, "0", start, until]
            subprocess.run(command, input=trial.text, stdout=file, check=True)
    done = subprocess.run(["dlx-join", words, *files], capture_output=True)
    last = trial.whole[1].splitlines(True)[-1]
    if (done.returncode, done.stdout, done.stderr) != (0, trial.whole[0], last):
        raise Wrong(f"dlx-join: {done.returncode} {done.stderr!r}")
    if len(files) > 1:
        left = trial.rng.choice(files)
        done = subprocess.run(["dlx-join", words, *(file for file in files if file != left)], capture_output=True)
        if done.returncode != 5 or not trial.whole[0].startswith(done.stdout):
            raise Wrong(f"dlx-join without a text: {done.returncode} {done.stderr!r}")


def some_edges(trial):
    """Rows at which its listing is cut, from those of its solutions."""
    rows = rows_in(subprocess.run([trial.program, "m1"], input=trial.text, capture_output=True).stdout)
    cut = {tuple(row[: trial.rng.randint(1, len(row))]) for row in trial.rng.sample(rows, min(len(rows), trial.rng.randint(0, 9)))}
    return [".".join(map(str, row)) for row in sorted(cut)]


def chain_of(trial, problem, listed, edges):
    """The texts of the spans between rows, some of which are broken off and gone on with."""
    texts = []
    at = "-"
    for until in [*edges, "-"]:
        while True:
            command = ["dlx-span", str(trial.kind), "m1" if listed else "m0", str(trial.rng.choice([0, 0, 500])), at, until]
            texts.append(subprocess.run(command, input=problem, capture_output=True, check=True).stdout)
            at = texts[-1].split(b"\n")[-2].split(b" ")[3].decode()
            if at == until:
                break
    return texts


def join(trial, listed, texts):
    """What dlx-join says of texts in files, with the files' names."""
    files = []
    for number, text in enumerate(texts):
        files.append(os.path.join(trial.top, f"{number}.text"))
        with open(files[-1], "wb") as file:
            file.write(text)
    return files, subprocess.run(["dlx-join", "m1" if listed else "m0", *files], capture_output=True)


def problems_are_mixed(trial):
    """Texts of another problem among those between the same rows: as where the problem's file was changed."""
    items, *options = [line for line in trial.text.split(b"\n") if line.strip() and not line.lstrip().startswith(b"|")]
    others = [options[:-1], [*options, *options[-1:]], options[::-1], [*options[1:], *options[:1]]]
    problems = [trial.text, *(b"\n".join([items, *other]) for other in others)]
    edges = some_edges(trial)
    refused = 0
    for listed in (False, True):
        chains = [(digest_of(problem), chain_of(trial, problem, listed, edges)) for problem in problems]
        for _ in range(10):
            (digest, mixed), (other, texts) = trial.rng.sample(chains, 2)
            at = trial.rng.randrange(len(mixed))
            mixed = [*mixed[:at], trial.rng.choice(texts), *mixed[at + 1 :]]
            files, done = join(trial, listed, mixed)
            if digest == other or len(mixed) == 1:
                continue
            refused += 1
            # Before ends that don't meet are looked at.
            told = f"{files[max(at, 1)]}: line 1: another problem than in {files[0]}: line 1.\n"
            gap = f"{files[0]}: line 1: gap from - until ".encode()
            if at == 0 and done.stderr.startswith(gap):
                continue
            if (done.returncode, done.stderr.decode()) != (5, told):
                raise Wrong(f"dlx-join: {done.returncode} {done.stderr!r}, and not {told!r}")
    trial.say(f"{refused} joins of two problems refused")


def listings_are_damaged(trial):
    """A line of some texts is lost, doubled, exchanged, has another end or is another one. What is joined then is what a
    reader of its own takes: texts whose rows rise as well, since nothing else of a choice line can be known."""
    text = b"".join(chain_of(trial, trial.text, True, some_edges(trial)))
    whole = joined(text)
    seen = Counter()
    for _ in range(60):
        lines = text.splitlines(True)
        what = damage_line(trial.rng, lines)
        damaged = b"".join(lines)
        done = subprocess.run(["dlx-join", "m1"], input=damaged, capture_output=True)
        try:
            right = joined(damaged)
        except Refused:
            right = None
        seen[done.returncode] += 1
        if (done.returncode == 0) != (right is not None) or done.returncode not in (0, 2, 5):
            raise Wrong(f"dlx-join: {done.returncode} {done.stderr!r} for {what}")
        if right is not None and done.stdout != right:
            raise Wrong(f"dlx-join prints another listing for {what}")
        if right is not None and rows_in(right) != rows_in(whole):
            seen["0 with other rows"] += 1
    trial.say(f"statuses: {dict(seen)}")


def damage_line(rng, lines):
    """Damages a line of a text, and says how."""
    at = rng.randrange(len(lines))
    line = lines[at]
    how = rng.choice(["lost", "doubled", "exchanged", "CR LF", "byte", "more", "less", "garbage", "elsewhere"])
    if how == "lost":
        del lines[at]
    elif how == "doubled":
        lines.insert(at, line)
    elif how == "exchanged":
        other = rng.choice([at - 1, rng.randrange(len(lines))])
        lines[at], lines[other] = lines[other], line
    elif how == "CR LF":
        lines[at] = line[:-1] + b"\r\n"
    elif how == "byte":
        place = rng.randrange(len(line))
        lines[at] = line[:place] + bytes([rng.randrange(256)]) + line[place + 1 :]
    elif how == "more":
        place = rng.randrange(len(line))
        lines[at] = line[:place] + rng.choice([b" ", b"\0", b"\t", b"0", b"1", b"\xff", b"\n"]) + line[place:]
    elif how == "less":
        place = rng.randrange(len(line))
        lines[at] = line[:place] + line[place + rng.randint(1, 5) :]
    elif how == "garbage":
        lines.insert(at, rng.choice([b"\n", b" \n", b" x\n", b"x (1 of 1)\n", b"1:\n", rng.randbytes(9) + b"\n"]))
    else:
        lines.insert(rng.randrange(len(lines)), lines.pop(at))
    return f"line {at + 1} of {len(lines)}, {line!r}: {how}"


def workers_of_dask(trial):
    """A scheduler and some workers, of which some are killed and others come."""
    if not HAS_DASK:
        return False
    environment = {**os.environ, "HELGROTHY_BIN": trial.bin, "PYTHONPATH": os.path.join(TOP, "python")}
    where = os.path.join(trial.top, "scheduler.json")

    def begin(*words):
        log = tempfile.TemporaryFile()
        how = {"stdout": log, "stderr": log, "start_new_session": True, "env": environment, "cwd": trial.top}
        process = subprocess.Popen(["python3", "-m", *words], **how)
        trial.running.append(process)
        return process

    file = ["--no-dashboard", "--scheduler-file", where]
    begin("distributed.cli.dask_scheduler", "--host", "127.0.0.1", "--port", "0", *file)
    until = time.monotonic() + LONG
    while not os.path.exists(where) and time.monotonic() < until:
        time.sleep(0.1)

    def worker():
        return begin("distributed.cli.dask_worker", "--nthreads", "1", *file)

    workers = [worker() for _ in range(2)]
    words = [word for word in trial.words() if not word.isdigit() and word != "--jobs"]
    process = trial.start([*words, "--dask", where])
    for _ in range(2):
        time.sleep(trial.rng.uniform(0.5, 3))
        os.killpg(workers.pop(0).pid, signal.SIGKILL)
        workers.append(worker())
    if trial.end(process)[0] != 0:
        raise Wrong("it isn't done by Dask")


def has_dask():
    return subprocess.run(["python3", "-c", "import distributed"], stderr=subprocess.DEVNULL).returncode == 0


HAS_DASK = has_dask()
NAMES = [
    "nothing",
    "seconds",
    "command_is_killed",
    "killed_as_it_begins",
    "folders_of_others",
    "group_is_interrupted",
    "interrupted_late",
    "workers_are_killed",
    "stopped_and_continued",
    "two_commands",
    "full_disk",
    "few_to_be_had",
    "full_output",
    "nobody_reads",
    "times_of_files",
    "problem_changes",
    "other_words",
    "files_are_damaged",
    "files_are_damaged",
    "looked_at_while_it_runs",
    "programs_fail",
    "programs_fail",
    "by_hand",
    "problems_are_mixed",
    "listings_are_damaged",
    "workers_of_dask",
]
