#!/usr/bin/env python3
"""Tests of scripts/build over a toolchain that only pretends: what is built, what is taken as it is, what is told; and
of what is installed and packed then.
"""

from __future__ import annotations

import os
import shutil
import subprocess
import sys
import tarfile
import tempfile
import unittest
import zipfile
from pathlib import Path

TOP = Path(__file__).resolve().parent.parent
# As scripts/bench/unproved.py, which builds a program without proofs.
UNPROVED = """import pathlib, sys
_, top, name, out = sys.argv
source = pathlib.Path(top, "crates", name, "src", "lib.rt").read_text()
if source == "broken": sys.exit(f"no code of {name}")
made = pathlib.Path(out, name)
made.write_text(f"#!/bin/sh\\necho unproved, of {source}\\n")
made.chmod(0o755)
"""
PROGRAMS = ["dlx1", "dlx2", "dlx3", "dlxcheck", "dlx_span", "dlx_join", "dlx_count", "dlx_none"]
RT = """#!/bin/sh
[ "$1" != version ] || exec echo a kit
echo 'so far: 3 of 9 functions checked'
name=$(basename "$PWD")
[ ! -e "$PWD/broken" ] || { echo "no proof of $name"; exit 1; }
case $1 in
run) mkdir -p out && printf '#!/bin/sh\\n' >"out/$name" && chmod +x "out/$name" ;;
esac
"""


# `make` says which folder it is in where another one calls it, as `make test` does; git tells its hooks where it is.
ENVIRONMENT = {name: value for name, value in os.environ.items() if not name.startswith(("MAKE", "MFLAGS", "GIT_"))}


class Build(unittest.TestCase):
    def setUp(self) -> None:
        self.top = Path(tempfile.mkdtemp())
        self.addCleanup(shutil.rmtree, self.top)
        (self.top / "scripts").mkdir()
        shutil.copy(TOP / "scripts" / "build", self.top / "scripts")
        (self.top / "crates.txt").write_text("low:\nhigh: low std\none: high\ntwo: low # a comment\n")
        for name in ("low", "high", "one", "two"):
            (self.top / "crates" / name / "src").mkdir(parents=True)
            (self.top / "crates" / name / "src" / "lib.rt").write_text(name)
        (self.top / "kit").mkdir()
        (self.top / "kit" / "rt").write_text(RT)
        (self.top / "kit" / "rt").chmod(0o755)

    def build(self, *words: str) -> tuple[int, list[str]]:
        ran = self.ran(*words)
        return ran.returncode, sorted(ran.stdout.splitlines())

    def ran(self, *words: str) -> subprocess.CompletedProcess[str]:
        path = f"{self.top / 'kit'}:{os.environ['PATH']}"
        how = {"capture_output": True, "text": True, "env": {**os.environ, "PATH": path}, "timeout": 60}
        return subprocess.run([self.top / "scripts" / "build", *words], **how)

    def test_from_nothing(self) -> None:
        told = ["built: one", "built: two", "crate 1 of 2: low", "crate 2 of 2: high"]
        self.assertEqual(self.build("one", "two"), (0, told))
        self.assertEqual(self.build("one", "two"), (0, ["built already: one two"]))

    def test_what_changed_is_built_again(self) -> None:
        self.build("one", "two")
        (self.top / "crates" / "high" / "src" / "lib.rt").write_text("another")
        status, told = self.build("one", "two")
        self.assertEqual((status, told[:2]), (0, ["built already: two", "built: one"]))
        (self.top / "crates" / "two" / "out" / "two").write_text("not what was built")
        self.assertIn("built: two", self.build("two")[1])

    def program(self, name: str) -> Path:
        """A program, as another command than this one builds it."""
        built = self.top / "crates" / name / "out" / name
        built.parent.mkdir(exist_ok=True)
        built.write_text("a program")
        return built

    def test_what_the_gate_built_is_taken(self) -> None:
        before = self.ran("--before", "one", "two").stdout
        self.program("one")
        noted = self.ran("--note", before, "one", "two")
        self.assertEqual((noted.returncode, noted.stdout), (1, ""))
        self.assertEqual(noted.stderr, "two isn't taken as built: it wasn't built meanwhile\n")
        self.assertEqual(self.build("one"), (0, ["built already: one"]))

    def test_what_was_there_before_is_not_taken_for_what_the_gate_built(self) -> None:
        self.build("one")
        (self.top / "crates" / "one" / "src" / "lib.rt").write_text("another")
        before = self.ran("--before", "one").stdout
        for state in (before, "", "one", "one a b", "one a b c\n\n"):
            self.assertEqual(self.build("--note", state, "one"), (1, []))
        self.assertIn("built: one", self.build("one")[1])

    def test_no_program_is_taken_whose_sources_were_touched_meanwhile(self) -> None:
        source = self.top / "crates" / "low" / "src" / "lib.rt"
        kit = self.top / "kit" / "rt"
        given = kit.read_text()
        told = "one isn't taken as built: its sources, or the toolchain, were touched meanwhile\n"
        # Changed; changed back; another source; another toolchain.
        for texts in (["another"], ["another", "low"]):
            before = self.ran("--before", "one").stdout
            self.program("one")
            for text in texts:
                source.write_text(text)
            self.assertEqual(self.ran("--note", before, "one").stderr, told)
        before = self.ran("--before", "one").stdout
        self.program("one")
        (source.parent / "more.rt").write_text("")
        self.assertEqual(self.ran("--note", before, "one").stderr, told)
        before = self.ran("--before", "one").stdout
        self.program("one")
        kit.write_text(given.replace("a kit", "a newer kit"))
        self.assertEqual(self.ran("--note", before, "one").stderr, told)
        self.assertFalse((self.top / "bin" / ".built" / "one").exists())
        # While it is built here.
        kit.write_text(given.replace("run)", f"run) echo changed >{source};"))
        built = self.ran("one")
        self.assertEqual((built.returncode, built.stderr), (1, told))

    def test_a_damaged_note_counts_as_none(self) -> None:
        note = self.top / "bin" / ".built" / "one"
        damages = [
            lambda: note.symlink_to("/etc/passwd"),
            lambda: note.mkdir(),
            lambda: (note.mkdir(), (note / "a").touch()),
            lambda: note.write_bytes(b"\377\376 \0 \n"),
            lambda: note.touch(),
            lambda: note.write_text("a b c d\ne f\n"),
            lambda: os.mkfifo(note),
            lambda: (shutil.rmtree(note.parent), note.parent.touch()),
            lambda: (shutil.rmtree(note.parent), note.parent.symlink_to("nowhere")),
        ]
        for damage in damages:
            self.build("one")
            note.unlink()
            damage()
            checked, built = self.ran("--check", "one"), self.ran("one")
            self.assertEqual((checked.stderr, built.stderr), ("bin/one isn't built: run make all\n", ""))
            self.assertEqual((built.returncode, built.stdout.splitlines()[-1]), (0, "built: one"))
            self.assertEqual(self.build("one"), (0, ["built already: one"]))

    def test_a_failure_is_shown(self) -> None:
        (self.top / "crates" / "low" / "broken").touch()
        status, told = self.build("two")
        self.assertEqual(status, 1)
        self.assertIn("low isn't built:", told)
        self.assertIn("no proof of low", told)


class Tree(unittest.TestCase):
    """The crates of the repository by their names, and a toolchain that says much and proves nothing."""

    def setUp(self) -> None:
        self.top = Path(tempfile.mkdtemp())
        self.addCleanup(shutil.rmtree, self.top)
        (self.top / "scripts" / "bench").mkdir(parents=True)
        for name in ("build", "helgrothy"):
            shutil.copy(TOP / "scripts" / name, self.top / "scripts")
        (self.top / "scripts" / "bench" / "unproved.py").write_text(UNPROVED)
        for name in ("Makefile", "VERSION", "crates.txt"):
            shutil.copy(TOP / name, self.top)
        for crate in (TOP / "crates").iterdir():
            (self.top / "crates" / crate.name / "src").mkdir(parents=True)
            (self.top / "crates" / crate.name / "src" / "lib.rt").write_text(crate.name)
        (self.top / "kit").mkdir()
        talking = "seq -f 'so far: %g of 300 functions checked' 300; echo \"$1 $PWD\" >>\"$(dirname \"$0\")/calls\"\n"
        (self.top / "kit" / "rt").write_text(RT.replace("name=", f"{talking}name=", 1))
        (self.top / "kit" / "rt").chmod(0o755)

    def run_make(self, *words: str, path: str | None = None) -> subprocess.CompletedProcess[str]:
        """`make` with words, with the toolchain on the path, or by another path."""
        environment = {**ENVIRONMENT, "PATH": path or f"{self.top / 'kit'}:{os.environ['PATH']}"}
        return subprocess.run(["make", *words], cwd=self.top, capture_output=True, text=True, env=environment)

    def make(self, target: str = "all") -> list[str]:
        ran = self.run_make(target)
        self.assertEqual((ran.returncode, ran.stderr), (0, ""))
        return ran.stdout.splitlines()


class Whole(Tree):
    """`make all`, and what it leaves in `bin`."""

    def calls(self) -> list[str]:
        """The crates that the toolchain was at."""
        calls = self.top / "kit" / "calls"
        return [Path(line.split()[1]).name for line in calls.read_text().splitlines()] if calls.exists() else []

    def test_from_nothing_few_lines_are_printed(self) -> None:
        told = self.make()
        # A line for each library, and one for each program.
        self.assertEqual(len(told), len(self.calls()))
        self.assertLessEqual(len(told), 40)
        # The gate takes no links in the tree, and has the programs' own folders for itself while it runs.
        for name in ("dlx1", "dlx-span", "helgrothy"):
            self.assertTrue((self.top / "bin" / name).is_file() and not (self.top / "bin" / name).is_symlink())
            self.assertTrue(os.access(self.top / "bin" / name, os.X_OK))

    def test_bin_has_what_was_built_last_and_no_links(self) -> None:
        self.make()
        (self.top / "crates" / "dlx_join" / "out" / "dlx_join").write_text("another program")
        (self.top / "bin" / "dlx1").unlink()
        (self.top / "bin" / "dlx1").symlink_to("../crates/dlx1/out/dlx1")
        (self.top / "bin" / "left").symlink_to("nowhere")
        subprocess.run(["make", "-s", "bin"], cwd=self.top, check=True, env=ENVIRONMENT)
        self.assertEqual((self.top / "bin" / "dlx-join").read_text(), "another program")
        self.assertEqual([it for it in (self.top / "bin").iterdir() if it.is_symlink()], [])
        self.assertTrue((self.top / "bin" / "dlx1").is_file())

    def test_nothing_is_installed_before_it_is_built(self) -> None:
        ran = self.run_make("install", f"DESTDIR={self.top / 'to'}")
        self.assertIn("bin/dlx1 isn't built: run make all\n", ran.stderr)
        self.assertFalse((self.top / "to").exists())

    def test_quick_builds_without_proofs_what_is_not_built(self) -> None:
        told = f"not proved, until make all replaces them: {' '.join(PROGRAMS)}"
        lines = self.make("quick")
        self.assertEqual(sorted(lines[:-1]), sorted(f"built without proofs: {name}" for name in PROGRAMS))
        self.assertEqual((lines[-1], self.calls()), (told, []))
        self.assertEqual((self.top / "bin" / "dlx-join").read_text(), "#!/bin/sh\necho unproved, of dlx_join\n")
        self.assertTrue(all(os.access(self.top / "bin" / it, os.X_OK) for it in ("dlx1", "dlx-join", "helgrothy")))
        self.assertEqual(self.make("quick"), [told])
        # These aren't taken for proved ones.
        self.make()
        self.assertNotIn("unproved", (self.top / "bin" / "dlx-join").read_text())
        self.assertEqual(self.make("quick"), [f"built already: {' '.join(PROGRAMS)}"])
        self.make("checked")

    def test_quick_after_a_change(self) -> None:
        self.make()
        source = self.top / "crates" / "dlx3" / "src" / "lib.rt"
        for text in ("another", "a third"):
            source.write_text(text)
            self.assertEqual(len(self.make("quick")), 3)
            self.assertEqual((self.top / "bin" / "dlx3").read_text(), f"#!/bin/sh\necho unproved, of {text}\n")
        self.assertNotIn("unproved", (self.top / "bin" / "dlx1").read_text())
        source.write_text("broken")
        ran = self.run_make("quick")
        self.assertEqual((ran.returncode, ran.stdout.splitlines()[1:]), (2, ["dlx3 isn't built:", "no code of dlx3"]))
        script = self.top / "scripts" / "bench" / "unproved.py"
        script.write_text(f"{UNPROVED}pathlib.Path({os.fspath(source)!r}).write_text('meanwhile')\n")
        source.write_text("before")
        self.assertIn("dlx3 isn't built: its sources, or the toolchain, were touched", self.run_make("quick").stdout)
        self.assertEqual([it for it in (self.top / "bin").iterdir() if it.name.startswith(".unproved")], [])

    def gate(self, *also: str) -> list[str]:
        """tests/gate.sh with an `rt ci` that builds all programs, and does some things more. What it says of them."""
        (self.top / "tests").mkdir(exist_ok=True)
        shutil.copy(TOP / "tests" / "gate.sh", self.top / "tests")
        kit = self.top / "kit"
        names = " ".join(PROGRAMS)
        builds = f'for name in {names}; do mkdir -p crates/$name/out; echo $$ >crates/$name/out/$name; done'
        (kit / "rt").write_text(f"#!/bin/sh\ncase $1 in\nversion) echo a kit ;;\nci) {'; '.join([builds, *also])} ;;\nesac\n")
        environment = {**os.environ, "PATH": f"{kit}:{os.environ['PATH']}"}
        ran = subprocess.run(["sh", self.top / "tests" / "gate.sh"], capture_output=True, text=True, env=environment)
        self.assertEqual((ran.returncode, ran.stdout), (0, ""))
        return ran.stderr.splitlines()

    def test_behind_the_gate_nothing_is_built(self) -> None:
        self.assertEqual(self.gate(), [])
        for _ in range(2):
            self.assertEqual(self.make(), [f"built already: {' '.join(PROGRAMS)}"])
        self.assertEqual(self.calls(), [])

    def test_what_changed_while_the_gate_ran_is_built_again(self) -> None:
        source = f"{self.top}/crates/dlx3/src/lib.rt"
        told = "dlx3 isn't taken as built: its sources, or the toolchain, were touched meanwhile"
        self.assertEqual(self.gate(f"echo changed >{source}"), [told])
        others = [name for name in PROGRAMS if name != "dlx3"]
        environment = {**os.environ, "PATH": f"{self.top / 'kit'}:{os.environ['PATH']}"}
        words = [self.top / "scripts" / "build", *PROGRAMS]
        ran = subprocess.run(words, capture_output=True, text=True, env=environment)
        self.assertEqual(ran.stdout.splitlines()[0], f"built already: {' '.join(others)}")


class Packed(Tree):
    """What is installed and packed."""

    def setUp(self) -> None:
        super().setUp()
        for name in ("docs", "examples", "man", "release", "python/helgrothy"):
            shutil.copytree(TOP / name, self.top / name, ignore=shutil.ignore_patterns("*.pyc"))
        python, pages = ("python/README.md", "python/pyproject.toml"), ("README.md", "CHANGELOG.md", ".gitignore")
        for name in (*pages, *python, "bindings/c/helgrothy.h"):
            (self.top / name).parent.mkdir(parents=True, exist_ok=True)
            shutil.copy(TOP / name, self.top / name)
        # These name the version.
        for name in ("bindings/rust/Cargo.toml", "crates/xc_c/src/lib.rt"):
            (self.top / name).parent.mkdir(parents=True, exist_ok=True)
            shutil.copy(TOP / name, self.top / name)
        words = ["git", "-c", "user.name=x", "-c", "user.email=x", "-c", "init.defaultBranch=main"]
        for more in (["init", "-q"], ["add", "."], ["commit", "-q", "--no-gpg-sign", "-m", "all"]):
            subprocess.run([*words, *more], cwd=self.top, check=True, env=ENVIRONMENT)
        self.make()

    def stranger(self, *names: str) -> None:
        """Puts another program in some places."""
        for name in names:
            (self.top / name).unlink(missing_ok=True)
            (self.top / name).write_text("#!/bin/sh\necho another\n")
            (self.top / name).chmod(0o755)

    def refused(self, told: str, *words: str) -> None:
        """A target that fails, tells why, and makes nothing."""
        ran = self.run_make("-s", *words, f"DESTDIR={self.top / 'to'}", "PREFIX=")
        self.assertIn(f"{told}\n", ran.stderr)
        self.assertNotIn("Traceback", ran.stderr)
        self.assertNotEqual(ran.returncode, 0)
        self.assertFalse((self.top / "to").exists() or (self.top / "dist").exists())

    def test_what_was_built_is_installed_without_the_toolchain(self) -> None:
        tools = self.top / "tools"
        tools.mkdir()
        (tools / "python3").symlink_to(sys.executable)
        ran = self.run_make("install", f"DESTDIR={self.top / 'to'}", "PREFIX=", path=f"{tools}:/usr/bin:/bin")
        self.assertEqual((ran.returncode, ran.stderr), (0, ""))
        for name in PROGRAMS:
            self.assertTrue(os.access(self.top / "to" / "bin" / name.replace("_", "-"), os.X_OK))
        readme = (self.top / "to" / "share" / "doc" / "helgrothy" / "README.md").read_text()
        self.assertTrue(readme.startswith(f"# Helgrothy {(self.top / 'VERSION').read_text()}"))
        self.assertIn((self.top / "release" / "install.md").read_text(), readme)
        self.assertNotIn("make all", readme)

    def test_a_program_of_other_sources_is_neither_installed_nor_packed(self) -> None:
        (self.top / "crates" / "xc_list" / "src" / "lib.rt").write_text("another")
        for target in ("install", "dist", "deb", "wheel", "release"):
            self.refused("bin/dlx1 was built of other sources than these: run make all", target)
        self.make()
        self.make("dist")

    def test_a_program_that_was_not_built_is_not_installed(self) -> None:
        self.stranger("crates/dlx2/out/dlx2")
        self.refused("bin/dlx2 isn't the program that was built: run make all", "install")
        self.make()
        (self.top / "crates" / "dlx_span" / "out" / "dlx_span").unlink()
        self.stranger("bin/dlx-span")
        self.refused("bin/dlx-span isn't the program that was built: run make all", "install")
        self.refused("bin/dlx-span isn't the program that was built: run make all", "wheel")
        self.make()
        (self.top / "bin" / ".built" / "dlx3").unlink()
        self.refused("nothing says of what bin/dlx3 was built: run make all", "install")
        self.make()
        self.make("wheel")

    def test_a_program_that_is_not_proved_is_neither_installed_nor_packed(self) -> None:
        (self.top / "crates" / "dlx_count" / "src" / "lib.rt").write_text("another")
        self.make("quick")
        for target in ("install", "dist", "deb", "wheel"):
            self.refused("bin/dlx-count isn't proved: run make all", target)
        self.make()
        self.make("dist")

    def packed(self) -> set[str]:
        """What is in the archive and in the wheel, but for the folders."""
        self.make("dist")
        self.make("wheel")
        (archive,), (wheel,) = (list((self.top / "dist").glob(f"*.{ending}")) for ending in ("tar.gz", "whl"))
        with tarfile.open(archive) as first, zipfile.ZipFile(wheel) as second:
            return {it.name for it in first if not it.isdir()} | set(second.namelist())

    def test_what_git_does_not_track_is_not_packed(self) -> None:
        before = self.packed()
        for name in ("docs/notes.txt~", "examples/.x.swp", "man/x.1", "release/x", "python/helgrothy/.secret"):
            (self.top / name).write_text("secret")
        cache = self.top / "python" / "helgrothy" / ".mypy_cache"
        cache.mkdir()
        (cache / "x.json").write_text("{}")
        (self.top / "docs" / "link.md").symlink_to("/etc/hostname")
        (self.top / "examples" / "folder").symlink_to("/etc/ssl")
        self.assertEqual(self.packed(), before)
        self.assertEqual(len([name for name in before if name.endswith("GUIDE.md")]), 1)

    def test_what_git_tracks_is_packed_as_it_is_or_nothing(self) -> None:
        shutil.rmtree(self.top / "dist", ignore_errors=True)
        guide = self.top / "docs" / "GUIDE.md"
        text = guide.read_text()
        for damage in (lambda: None, lambda: guide.symlink_to("/etc/hostname"), guide.mkdir):
            guide.unlink()
            damage()
            for target in ("dist", "wheel"):
                self.refused("what git tracks is missing, or no plain file:\ndocs/GUIDE.md", target)
            guide.rmdir() if damage == guide.mkdir else guide.unlink(missing_ok=True)
            guide.write_text(text)
        (self.top / "docs").rename(self.top / "elsewhere")
        (self.top / "docs").symlink_to("elsewhere")
        self.refused("docs/GUIDE.md", "dist")

    def test_nothing_is_packed_that_was_built_of_what_git_does_not_track(self) -> None:
        (self.top / "crates" / "dlx2" / "src" / "more.rt").write_text("more")
        self.make()
        for target in ("dist", "deb", "wheel"):
            self.refused("built of files that git doesn't track:\ncrates/dlx2/src/more.rt", target)

    def test_an_archive_stays_where_another_cannot_be_packed(self) -> None:
        self.packed()
        before = {file: file.read_bytes() for file in (self.top / "dist").iterdir()}
        # Each of these writes something first.
        for name in ("tar", "gzip", "sort", "sha256sum"):
            fails = self.top / "kit" / name
            fails.write_text("#!/bin/sh\necho some\nexit 1\n")
            fails.chmod(0o755)
            self.assertNotEqual(self.run_make("-s", "dist").returncode, 0, name)
            self.assertEqual({file: file.read_bytes() for file in (self.top / "dist").iterdir()}, before, name)
            fails.unlink()
        self.packed()
        self.assertEqual({file: file.read_bytes() for file in (self.top / "dist").iterdir()}, before)

    def test_nothing_is_packed_without_git(self) -> None:
        shutil.rmtree(self.top / ".git")
        for target in ("dist", "deb", "wheel"):
            self.refused("this folder isn't the top of a repository of git", target)

    def test_a_program_of_another_toolchain_is_not_installed(self) -> None:
        kit = self.top / "kit" / "rt"
        kit.write_text(kit.read_text().replace("a kit", "a newer kit"))
        self.refused("bin/dlx1 was built by another toolchain, a kit: run make all", "install")


class Places(unittest.TestCase):
    """The programs that are run where a tree's own path, or HELGROTHY_BIN, has a colon."""

    def setUp(self) -> None:
        self.top = Path(tempfile.mkdtemp()).resolve()
        self.addCleanup(shutil.rmtree, self.top)

    def programs(self, folder: Path, told: str) -> None:
        folder.mkdir(parents=True, exist_ok=True)
        for name in ("dlx1", "dlx2", "dlx3", "dlxcheck"):
            (folder / name).write_text(f"#!/bin/sh\necho {told} >&2\nexit 1\n")
            (folder / name).chmod(0o755)

    def tree(self, name: str) -> Path:
        """A folder as an archive has it."""
        tree = self.top / name
        shutil.copytree(TOP / "python" / "helgrothy", tree / "python" / "helgrothy", ignore=shutil.ignore_patterns("*.pyc"))
        self.programs(tree / "bin", "OWN")
        shutil.copy(TOP / "scripts" / "helgrothy", tree / "bin")
        return tree

    def run_in(self, folder: Path, tree: Path, given: str | None = None) -> str:
        """What a command says, with a HELGROTHY_BIN, in a folder."""
        environment = {name: value for name, value in ENVIRONMENT.items() if name != "HELGROTHY_BIN"}
        if given is not None:
            environment["HELGROTHY_BIN"] = given
        words = [tree / "bin" / "helgrothy", "queens", "4"]
        environment["PYTHONDONTWRITEBYTECODE"] = "1"
        return subprocess.run(words, cwd=folder, capture_output=True, text=True, env=environment).stderr

    def test_no_program_of_the_current_folder_is_run(self) -> None:
        stranger = self.top / "a"
        for folder in ("", "bin", "bin/bin", "b", "b/bin", "c/b/bin"):
            self.programs(stranger / folder, "ANOTHER")
        for name in ("a:bin", "a:b", "a:", "a::", "a:c/b", "a:b:bin", ":b", "a:/bin", "plain"):
            said = self.run_in(stranger, self.tree(name))
            self.assertIn("OWN", said, name)
            self.assertNotIn("ANOTHER", said, name)
        tree = self.top / "plain"
        for given in (".", "bin", "./bin", ":bin", "bin:", "bin:.", "../a", "::", f"bin:{self.top}/none:b"):
            self.assertNotIn("ANOTHER", self.run_in(stranger, tree, given), given)

    def test_programs_are_run_by_whole_paths(self) -> None:
        tree = self.tree("tree")
        for name in ("first", "second:b", "third"):
            self.programs(self.top / name, name.upper())
        top = self.top
        for given, told in (
            (f"{top}/first", "FIRST"),
            (f"{top}/first:", "FIRST"),
            (f":{top}/first:{top}/third", "FIRST"),
            (f"{top}/none:{top}/third", "THIRD"),
            (f"{top}/none::{top}/third", "THIRD"),
            (f"bin:{top}/third", "THIRD"),
            (f"{top}/second:b", "SECOND:B"),
            (f"{top}/none:{top}/second:b:{top}/first", "SECOND:B"),
        ):
            self.assertIn(told, self.run_in(top, tree, given), given)


class Help(unittest.TestCase):
    def test_make_help_names_all_targets(self) -> None:
        lines = (TOP / "Makefile").read_text().splitlines()
        targets = {word for line in lines if line.startswith(".PHONY:") for word in line.split()[1:]}
        targets -= {"help", "$(PROGRAMS)", "$(DASHED_CRATES)", "checked", "install-lib", "uninstall-lib"}
        words = ["make", "-s", "-C", TOP, "help"]
        ran = subprocess.run(words, capture_output=True, text=True, check=True, env=ENVIRONMENT)
        told = [line.partition(": ")[0] for line in ran.stdout.splitlines()]
        self.assertEqual(told, sorted(told, key=lambda name: f"{name}:"))
        self.assertEqual({name for name in targets if not name.startswith("dlx")}, set(told))
        # Whoever asks for what takes an hour reads that it does.
        self.assertLessEqual({"all", "lib"}, {line.partition(": ")[0] for line in ran.stdout.splitlines() if "proves" in line})


if __name__ == "__main__":
    unittest.main()
