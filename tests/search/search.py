#!/usr/bin/env python3
"""search.py TRIES SEED [JOBS]: searches in spans of random problems of all kinds, with mishaps.

Workers and the command are killed, stopped and continued, two commands share a folder, disks are full, memory and open
files are few, files are damaged, exchanged and of another time, the problem changes during a run and is put back,
programs fail or give a half, workers of Dask are killed where its package is installed, the command is killed as it
makes the folder, the folder or files in it are another one's, which have to stay as they are, and texts of two problems
are mixed and lines of texts damaged, which dlx-join has to refuse. Whenever a command ends with status 0 what it
printed has to be the listing and the messages of the program in one, byte for byte; with another status it has to say
why, in lines and not in a traceback; the same command has to go on to that listing once the mishap is over; and no
program may be left. dlx1, dlx2, dlx3, dlx-span, dlx-join and helgrothy have to be on the path. A try that fails is
printed. The last lines are the tries of each mishap, and `N passed, M failed`.
"""

import concurrent.futures
import os
import random
import shutil
import sys
import time
import traceback
from collections import Counter

sys.path.insert(0, os.path.dirname(os.path.dirname(os.path.abspath(__file__))))

from search import mishaps  # noqa: E402
from search.trial import Trial, Wrong  # noqa: E402

PROGRAMS = ("dlx1", "dlx2", "dlx3", "dlx-span", "dlx-join", "helgrothy")


def one(seed, number):
    """The mishap's name, and what is wrong, if anything."""
    rng = random.Random(f"{seed}/{number}")
    name = mishaps.NAMES[number % len(mishaps.NAMES)]
    with Trial(rng) as trial:
        try:
            return name if getattr(mishaps, name)(trial) is not False else f"{name} (left out)", None
        except Exception as error:
            told = str(error) if isinstance(error, Wrong) else traceback.format_exc()
            return name, f"try {number} of seed {seed}, {name}: {told}\n{trial.story()}"


def main():
    missing = [name for name in PROGRAMS if shutil.which(name) is None]
    if missing:
        print(f"not on the path: {' '.join(missing)}")
        return 2
    tries, seed = int(sys.argv[1]), sys.argv[2]
    jobs = int(sys.argv[3]) if len(sys.argv) > 3 else min(3, os.cpu_count() or 1)
    begun = time.monotonic()
    seen, failed = Counter(), 0
    with concurrent.futures.ThreadPoolExecutor(jobs) as pool:
        for run in concurrent.futures.as_completed([pool.submit(one, seed, number) for number in range(tries)]):
            name, wrong = run.result()
            seen[name] += 1
            if wrong is not None:
                failed += 1
                print(wrong, flush=True)
    for name, count in sorted(seen.items()):
        print(f"{name.replace('_', ' ')}: {count}")
    print(f"{tries - failed} passed, {failed} failed, {time.monotonic() - begun:.0f} seconds")
    return 1 if failed else 0


if __name__ == "__main__":
    sys.exit(main())
