#!/bin/sh
# The Python package's tests, over the programs that `rt ci` built, and those of scripts/build and `bin`; then flake8 and
# mypy where they are installed, by python/setup.cfg and python/pyproject.toml. Prints what fails, and nothing else.
cd "$(dirname "$0")/../python" || exit 1
export PYTHONDONTWRITEBYTECODE=1

# run COMMAND WORD..: prints what it said where it fails
run() {
    told=$("$@" 2>&1) || {
        printf '%s\n' "$told"
        exit 1
    }
}

run python3 -m unittest discover -s tests
run python3 ../tests/build.py
if command -v flake8 >/dev/null; then run flake8 . ../scripts ../tests ../release; fi
if command -v mypy >/dev/null; then run mypy --cache-dir=/dev/null; fi
