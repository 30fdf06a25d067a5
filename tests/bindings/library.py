#!/usr/bin/env python3
"""library.py OUT: builds the library for C as a shared library, without proofs, in a minute of a processor.

`rt lib` would prove all libraries again after `rt ci`, which leaves none that it takes. So the crate gets a `main` that
makes each call, and is built as scripts/bench/unproved.py builds a program. Its calls are the only names that are told.
"""

from __future__ import annotations

import re
import shutil
import subprocess
import sys
import tempfile
from pathlib import Path

TOP = Path(__file__).resolve().parent.parent.parent
sys.path.insert(0, str(TOP / "scripts" / "bench"))
from inlining import converted  # noqa: E402
from unproved import FLAGS, TARGET, captured, crates_of, kit  # noqa: E402

MAIN = """
fn main(rt: HostRuntime) -> std::process::ExitCode {
    let text: &[u8] = b"a\\na\\n";
    let (mut number, mut line, mut fault, mut used, mut buffer) = (0, 0, 0, 0, [0; 100]);
    let mut status = helgrothy_version();
    status ^= helgrothy_fault(rt.alloc(), 1, text, 0, &mut line, &mut fault);
    status ^= helgrothy_count(rt.alloc(), 1, text, 0, 9, &mut number);
    status ^= helgrothy_total(rt.alloc(), 1, text, 0, 1000, &mut buffer, &mut used);
    status ^= helgrothy_list(rt.alloc(), 1, text, 0, 1, 9, &mut buffer, &mut used);
    std::process::ExitCode::from((status & 1) as u8)
}
"""


def copied(tree: Path) -> None:
    """The libraries, and the crate as a program of the name `calls`."""
    names = crates_of(TOP, "xc_c")
    for name in names:
        shutil.copytree(TOP / "crates" / name, tree / "crates" / name, ignore=shutil.ignore_patterns("out"))
    at = (tree / "crates" / "xc_c").rename(tree / "crates" / "calls")
    for file in at.rglob("*.*t*"):
        if file.suffix in (".rt", ".antt"):
            file.write_text(file.read_text().replace("Rattle.xc_c.", "Rattle.calls."))
    (at / "src" / "lib.rt").rename(at / "src" / "main.rt")
    with open(at / "src" / "main.rt", "a") as main_file:
        main_file.write(MAIN)
    lines = (TOP / "crates.txt").read_text().splitlines(keepends=True)
    listed = "".join(it for it in lines if re.match(r"\w*", it)[0] in names)
    (tree / "crates.txt").write_text(listed.replace("xc_c staticlib:", "calls:"))


def build(out: Path) -> None:
    clang = str(kit() / "toolchain" / "bin" / "clang")
    with tempfile.TemporaryDirectory() as name:
        tree, folder = Path(name) / "tree", Path(name) / "made"
        copied(tree)
        module = captured(tree, "calls", folder)
        readable, plain, compiled, joined = (folder / f"calls.{it}" for it in ("try.ll", "ll", "o", "joined"))
        words = ["-S", "-emit-llvm", "-O0", "-Xclang", "-disable-llvm-passes", "-Wno-everything", "-o", str(readable)]
        subprocess.run([clang, "-x", "ir", str(module), *words], check=True)
        sources = {it.parent.name: it for it in (*(kit() / "rattle").glob("*/src"), *(tree / "crates").glob("*/src"))}
        with open(readable) as given, open(plain, "w") as made:
            for line in converted(given, sources):
                line = re.sub(r'@"calls::(helgrothy_\w+)"', r"@\1", line)
                made.write(re.sub(r"^define internal (.*@helgrothy_\w+\()", r"define \1", line))
        flags = ["-fPIC" if it == "-fPIE" else it for it in FLAGS]
        of = [f"--target={TARGET}", f"--sysroot={kit()}/toolchain"]
        subprocess.run([clang, *of, *flags, str(plain), "-o", str(compiled)], check=True)
        subprocess.run(["ar", "x", f"{kit()}/c/liblibc_c.a"], cwd=folder, check=True)
        subprocess.run(["ld", "-r", *map(str, folder.glob("*.o")), "-o", str(joined)], check=True)
        subprocess.run(["objcopy", "--wildcard", "--keep-global-symbol=helgrothy_*", str(joined)], check=True)
        subprocess.run(["gcc", "-shared", str(joined), "-o", str(out)], check=True)


if __name__ == "__main__":
    if len(sys.argv) != 2:
        sys.exit(__doc__)
    build(Path(sys.argv[1]))
