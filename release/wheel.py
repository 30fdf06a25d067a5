#!/usr/bin/env python3
"""wheel.py VERSION: the Python package with the programs as built, as a wheel in dist/.

The same files give the same bytes; they are of the time SOURCE_DATE_EPOCH.

The programs are in it twice: in the package's folder, which finds them there whatever the path is, and on the path of
an environment. The tag names glibc 2.34, since the programs use symbols of that version. It is written by `zipfile`, so
that making it needs no build tool.
"""
import base64
import hashlib
import os
import sys
import time
import zipfile

PROGRAMS = ("dlx1", "dlx2", "dlx3", "dlxcheck", "dlx-span", "dlx-join", "dlx-count", "dlx-none")
# What pip writes for an entry point can't keep Python from the current folder and PYTHONPATH, so the command is the
# repository's script.
# The programs need glibc 2.34.
TAG = "py3-none-manylinux_2_34_x86_64"

METADATA = """\
Metadata-Version: 2.1
Name: helgrothy
Version: {version}
Summary: Exact cover solvers by dancing links, as proved software
Requires-Python: >=3.9
Classifier: Operating System :: POSIX :: Linux
Classifier: Programming Language :: Python :: 3
Classifier: Topic :: Games/Entertainment :: Puzzle Games
Classifier: Topic :: Scientific/Engineering :: Mathematics
Classifier: Typing :: Typed
Description-Content-Type: text/markdown

{description}"""

WHEEL = f"""\
Wheel-Version: 1.0
Generator: helgrothy
Root-Is-Purelib: false
Tag: {TAG}
"""


def read(path):
    with open(path, "rb") as file:
        return file.read()


def package():
    """The package's files, by the names that they have in the wheel."""
    files = {}
    for folder, _, names in os.walk("python/helgrothy"):
        for name in names:
            if not name.endswith(".pyc"):
                path = os.path.join(folder, name)
                files[os.path.relpath(path, "python")] = read(path)
    return files


def programs(version):
    """The programs beside the package, which looks for them there, and, with the command, on an environment's path."""
    files = {}
    for name in PROGRAMS:
        program = read(f"bin/{name}")
        files[f"helgrothy/bin/{name}"] = program
        files[f"helgrothy-{version}.data/scripts/{name}"] = program
    files[f"helgrothy-{version}.data/scripts/helgrothy"] = read("scripts/helgrothy")
    return files


def description():
    """README's first words, and what it says of limits, what the programs need, and the licence."""
    first, *sections = read("README.md").decode().split("\n## ")
    limits = next(it for it in sections if it.startswith("Limits"))
    return "\n\n".join([*first.split("\n\n")[:2], *limits.strip().split("\n", 1)[1:]]) + "\n"


def record(files, path):
    lines = []
    for name, content in files.items():
        digest = base64.urlsafe_b64encode(hashlib.sha256(content).digest()).rstrip(b"=").decode()
        lines.append(f"{name},sha256={digest},{len(content)}\n")
    return "".join(lines) + f"{path},,\n"


def main():
    version = sys.argv[1]
    executable = programs(version)
    files = dict(sorted({**package(), **executable}.items()))
    about = f"helgrothy-{version}.dist-info"
    files[f"{about}/METADATA"] = METADATA.format(version=version, description=description()).encode()
    files[f"{about}/WHEEL"] = WHEEL.encode()
    files[f"{about}/RECORD"] = record(files, f"{about}/RECORD").encode()

    os.makedirs("dist", exist_ok=True)
    then = time.gmtime(int(os.environ["SOURCE_DATE_EPOCH"]))[:6]
    with zipfile.ZipFile(f"dist/helgrothy-{version}-{TAG}.whl", "w", zipfile.ZIP_DEFLATED) as wheel:
        for name, content in files.items():
            entry = zipfile.ZipInfo(name, then)
            entry.compress_type = zipfile.ZIP_DEFLATED
            entry.create_system = 3
            entry.external_attr = (0o100755 if name in executable else 0o100644) << 16
            wheel.writestr(entry, content)


main()
