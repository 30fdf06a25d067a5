"""The commands as processes: what they load and run, and what they say where standard streams are closed."""

import itertools
import os
import subprocess
import sys
import tempfile
import unittest
from unittest import mock

import helgrothy
from helgrothy import Problem, ProgramNotFound
from helgrothy._run import programs

SCRIPT = os.path.join(os.path.dirname(os.path.dirname(os.path.dirname(os.path.abspath(__file__)))), "scripts", "helgrothy")
PACKAGE = os.path.dirname(os.path.dirname(os.path.abspath(helgrothy.__file__)))
# A module of each that the commands load, and of each that these load in turn.
MODULES = ["argparse", "colorsys", "difflib", "fractions", "html", "random", "re", "signal", "statistics", "tempfile"]
BOARD = ". . Q .\nQ . . .\n. . . Q\n. Q . .\n"


def command(name, *words, redirected="", **how):
    """A run of a command of this name, with a shell's redirections, by the Python that runs the tests."""
    environment = {**os.environ, **how.pop("environment", {})}
    environment["PATH"] = f"{os.path.dirname(sys.executable)}{os.pathsep}{environment.get('PATH', '')}"
    with tempfile.TemporaryDirectory() as folder:
        link = os.path.join(folder, name)
        os.symlink(SCRIPT, link)
        script = f'"$0" "$@" {redirected}'
        how = {"stdout": subprocess.PIPE, "stderr": subprocess.PIPE, **how}
        return subprocess.run(["/bin/sh", "-c", script, link, *words], env=environment, text=True, **how)


class Isolated(unittest.TestCase):
    def setUp(self) -> None:
        folder = tempfile.TemporaryDirectory()
        self.addCleanup(folder.cleanup)
        self.folder = folder.name

    def file(self, name: str, text: str, mode: int = 0o644) -> str:
        path = os.path.join(self.folder, name)
        os.makedirs(os.path.dirname(path), exist_ok=True)
        with open(path, "w") as file:
            file.write(text)
        os.chmod(path, mode)
        return path

    def strangers_folder(self) -> None:
        for module in MODULES:
            self.file(f"{module}.py", "print('HIJACKED')\n")
        for name in ("__init__", "__main__", "_cli/commands", "_spans/__init__", "_spans/commands"):
            self.file(f"helgrothy/{name}.py", "print('HIJACKED')\n")
        for program in ("dlx1", "dlx-span", "dlx-join", "sh", "python3", "readlink", "dirname"):
            self.file(program, "#!/bin/sh\necho HIJACKED\n", 0o755)
        self.file("p.dlx", "A B\nA\nB\nA B\n")

    def test_nothing_of_the_current_folder_is_loaded(self):
        self.strangers_folder()
        given = {"PYTHONPATH": ".", "PYTHONHOME": "/nowhere", "PYTHONINSPECT": "1", "PYTHONSTARTUP": "random.py"}
        for environment in ({}, given, {"PYTHONPATH": f":{self.folder}"}):
            how = {"cwd": self.folder, "environment": environment}
            self.assertEqual(command("helgrothy", "queens", "4", **how).stdout, BOARD)
            # Of two unknown names, so that names are compared.
            self.file("q.dlx", "tuesday\ntusday\n")
            self.assertIn("is it tuesday?", command("helgrothy", "lint", "q.dlx", **how).stdout)
            searched = command("helgrothy", "search", "p.dlx", "--list", **how)
            self.assertNotIn("HIJACKED", searched.stdout)
            self.assertEqual((searched.returncode, searched.stderr), (0, "Altogether 2 solutions.\n"))

    def test_run_by_m_the_package_loads_nothing_of_the_current_folder(self):
        """Python looks there first, and did so for what it loaded before the package."""
        # Some are loaded where they are needed first.
        late = "dataclasses, difflib, helgrothy._cli.acts, helgrothy.cost, helgrothy.draw, html, tempfile"
        before, after = (self.modules_of(more) for more in ("", f"import {late}; "))
        for module in [it for it in after if it not in before and it not in sys.builtin_module_names]:
            self.file(f"{module}.py", "print('HIJACKED')\n")
        self.assertLessEqual({"colorsys.py", "difflib.py", "fractions.py"}, set(os.listdir(self.folder)))
        for path in (PACKAGE, f"{self.folder}:{PACKAGE}", f".:{PACKAGE}:", f"{PACKAGE}:../{os.path.basename(self.folder)}/"):
            done = self.python("-m", "helgrothy", "queens", "4", path=path)
            self.assertEqual((done.stdout, done.stderr), (BOARD, "Altogether 1 solution (limit).\n"), path)

    def test_a_program_that_uses_the_package_still_finds_its_own_modules(self):
        self.file("mine/__init__.py", "import helgrothy\n")
        self.file("mine/__main__.py", "import helgrothy.make, other\n")
        self.file("other.py", "print('found')\n")
        for words in (["-m", "mine"], ["-c", "import helgrothy, other"]):
            done = self.python(*words, path=PACKAGE)
            self.assertEqual((done.stdout, done.stderr), ("found\n", ""))

    def modules_of(self, more: str) -> "set[str]":
        """The modules, but for those in packages, that Python loads to run one by -m, and for this besides."""
        done = self.python("-c", f"import sys, runpy; {more}print(*sys.modules)", path=PACKAGE)
        return {module for module in done.stdout.split() if "." not in module and module != "helgrothy"}

    def python(self, *words: str, path: str) -> "subprocess.CompletedProcess[str]":
        """A run of Python in the folder."""
        how = {"cwd": self.folder, "env": {**os.environ, "PYTHONPATH": path}, "text": True}
        return subprocess.run([sys.executable, *words], stdout=subprocess.PIPE, stderr=subprocess.PIPE, **how)

    def test_no_python_of_the_current_folder_is_run(self):
        self.strangers_folder()
        python, script = os.path.dirname(sys.executable), os.path.relpath(SCRIPT, self.folder)
        rest = f"{python}:/usr/bin:/bin"
        for path in ("", ".:..", f".:{rest}", f":./:{rest}", f"../{os.path.basename(self.folder)}:{rest}"):
            how = {"cwd": self.folder, "env": {**os.environ, "PATH": path}, "text": True}
            done = subprocess.run([script, "queens", "4"], stdout=subprocess.PIPE, stderr=subprocess.PIPE, **how)
            self.assertEqual((done.stdout, done.stderr), (BOARD, "Altogether 1 solution (limit).\n"), path)

    def test_no_program_of_the_current_folder_is_run(self):
        self.strangers_folder()
        before = os.getcwd()
        os.chdir(self.folder)
        try:
            with mock.patch.object(programs, "folders", lambda program: []):
                for path in (".", "", ":", "./"):
                    with mock.patch.dict(os.environ, PATH=path), self.assertRaises(ProgramNotFound):
                        programs.find("dlx1")
        finally:
            os.chdir(before)

    def test_programs_beside_the_package_come_before_the_path(self):
        self.file("dlx1", "#!/bin/sh\necho HIJACKED\n", 0o755)
        with mock.patch.dict(os.environ, PATH=f"{self.folder}:/usr/bin:/bin"):
            self.assertEqual(Problem("a", options=["a"]).count(), 1)
        done = command("helgrothy", "queens", "4", environment={"PATH": f"{self.folder}:/usr/bin:/bin"})
        self.assertEqual(done.stdout, BOARD)

    def test_programs_that_are_not_built(self):
        package = self.file("python/helgrothy/_run/programs.py", "")
        nowhere = mock.patch.dict(os.environ, {"PATH": "", programs.VARIABLE: ""})
        with nowhere, mock.patch.object(programs, "__file__", package):
            with self.assertRaisesRegex(ProgramNotFound, "^dlx1 is neither beside the package nor on the path; name its"):
                programs.find("dlx1")
            # As a repository has it, and no release.
            self.file("crates.txt", "")
            wanted = f"^dlx-span isn't built; `make all` in {self.folder} builds all programs"
            with self.assertRaisesRegex(ProgramNotFound, wanted):
                programs.find("dlx-span")

    def test_no_program_that_anybody_may_put_there_is_run(self):
        os.chmod(self.folder, 0o1777)
        self.file("bin/dlx1", "#!/bin/sh\n", 0o755)
        package = self.file("python/helgrothy/_run/programs.py", "")
        os.chmod(os.path.dirname(os.path.dirname(package)), 0o755)
        with mock.patch.object(programs, "__file__", package):
            self.assertNotIn(os.path.join(self.folder, "bin"), programs.folders("dlx1"))
            os.chmod(self.folder, 0o755)
            self.assertIn(os.path.join(self.folder, "bin"), programs.folders("dlx1"))

    def test_no_package_that_anybody_may_put_there_is_loaded(self):
        with open(SCRIPT) as file:
            script = self.file("bin/helgrothy", file.read(), 0o755)
        self.file("python/helgrothy/__init__.py", "")
        self.file("python/helgrothy/__main__.py", "def run(): print('LOADED')\n")
        for mode, wanted in ((0o755, "LOADED\n"), (0o1777, "")):
            os.chmod(self.folder, mode)
            done = subprocess.run([script], stdout=subprocess.PIPE, stderr=subprocess.PIPE, text=True)
            self.assertEqual(done.stdout, wanted)
        said = f"helgrothy: no package is loaded from '{self.folder}', into which anybody may write\n"
        self.assertEqual((done.returncode, done.stderr), (2, said))

    def test_temporary_files_are_for_nobody_else(self):
        seen = []
        find = programs.find

        def look(program: str) -> str:
            seen.extend((entry.name, entry.stat().st_mode & 0o077) for entry in os.scandir(self.folder))
            return find(program)

        with mock.patch.object(programs, "find", look), mock.patch("tempfile.tempdir", self.folder):
            for _ in range(2):
                Problem("a", options=["a"]).check([["a"]])
                list(Problem("a", options=["a"]).solve())
        self.assertEqual({mode for _, mode in seen}, {0})
        self.assertEqual(len({name for name, _ in seen}), 2)


class ClosedStreams(unittest.TestCase):
    """Each of the three may be closed: it fails where it is used, and no other file takes its number."""

    def setUp(self) -> None:
        folder = tempfile.TemporaryDirectory()
        self.addCleanup(folder.cleanup)
        self.folder = folder.name
        with open(os.path.join(self.folder, "p.dlx"), "w") as file:
            file.write("A | x\nx\nA x\nA\n")
        command("helgrothy", "search", "p.dlx", "--list", "--folder", "folder", cwd=self.folder)

    def test_all_combinations(self):
        one = [(True, False, False), (False, True, False), (False, False, True)]
        for name, words, given, printed, message in (
            ("helgrothy", ["solve", "-", "--all"], True, "A x\n\nA\n", "Altogether 2 solutions.\n"),
            ("helgrothy", ["lint"], True, "line 2: an option without a primary item is ignored\n", ""),
            ("helgrothy", ["queens", "4"], False, BOARD, "Altogether 1 solution (limit).\n"),
            ("helgrothy", ["make", "langford", "1"], False, None, ""),
            ("helgrothy", ["--help"], False, None, ""),
            ("helgrothy", ["search", "--status", "folder"], False, None, ""),
        ):
            has_all = words == ["solve", "-", "--all"]
            for closed in itertools.product((False, True), repeat=3) if has_all else one:
                with self.subTest(name=name, words=words, closed=closed):
                    self.try_one(name, words, given, printed, message, closed)

    def try_one(self, name, words, given, printed, message, closed):
        redirected = " ".join(["<&-" if closed[0] else "<p.dlx", *([">&-"] if closed[1] else []), *(["2>&-"] if closed[2] else [])])
        done = command(name, *words, redirected=redirected, cwd=self.folder)
        is_well = not (closed[0] and given or closed[1] and printed != "" or closed[2] and message)
        self.assertEqual(done.returncode == (1 if words == ["lint"] else 0), is_well, done)
        self.assertNotIn("Traceback", done.stderr)
        if printed is not None and not (closed[0] and given):
            self.assertEqual(done.stdout, "" if closed[1] else printed)
        if not is_well and not closed[2]:
            stream = "standard input" if closed[0] and given else "standard output"
            self.assertEqual((done.returncode, done.stderr), (2, f"{name}: {stream}: Bad file descriptor\n"))
        elif not is_well:
            self.assertEqual((done.returncode, done.stderr), (2, ""))

    def test_a_listing(self):
        """As the programs in one, but that its warnings come first: where they can't be printed nothing is listed."""
        listing, warning = "1:\n A x (1 of 2)\n2:\n A (2 of 2)\n", "Option ignored (no primary items): line 2\n"
        for words in (["search", "p.dlx", "--list"], ["search", "--result", "folder", "--list"]):
            for closed in itertools.product((False, True), repeat=3):
                with self.subTest(words=words, closed=closed):
                    redirected = " ".join(text for is_closed, text in zip(closed, ("<&-", ">&-", "2>&-")) if is_closed)
                    done = command("helgrothy", *words, redirected=redirected, cwd=self.folder)
                    wanted = "" if closed[2] else warning + ("Write failed.\n" if closed[1] else "Altogether 2 solutions.\n")
                    self.assertEqual(done.stderr, wanted)
                    self.assertEqual(done.stdout, "" if closed[1] or closed[2] else listing)
                    self.assertEqual(done.returncode, 2 if closed[2] else 3 if closed[1] else 0)

    def test_a_folder_as_standard_input(self):
        done = command("helgrothy", "lint", redirected="<.", cwd=self.folder)
        self.assertEqual((done.returncode, done.stdout, done.stderr), (2, "", "helgrothy: standard input is a folder\n"))

    def test_a_full_disk(self):
        done = command("helgrothy", "queens", "4", redirected=">/dev/full")
        self.assertEqual((done.returncode, done.stderr), (2, "helgrothy: standard output: No space left on device\n"))
        done = command("helgrothy", "--help", redirected=">/dev/full")
        self.assertEqual((done.returncode, done.stderr), (2, "helgrothy: standard output: No space left on device\n"))

    def test_nobody_reads(self):
        self.assertEqual(command("helgrothy", "make", "queens", "100", redirected="| head -n 1; exit 0").stderr, "")
        # It is no failure, where a script asks for that of each command of a pipe.
        script = f"({SCRIPT} queens 10 --all; echo $? >status) | head -n 1"
        subprocess.run(["sh", "-c", script], stdout=subprocess.DEVNULL, stderr=subprocess.DEVNULL, cwd=self.folder)
        with open(os.path.join(self.folder, "status")) as file:
            self.assertEqual(file.read(), "0\n")
        script = f"({sys.executable} -I {SCRIPT} 2>&1; echo $? >&2) | true"
        self.assertNotIn("Traceback", subprocess.run(["sh", "-c", script], stderr=subprocess.PIPE, text=True).stderr)


if __name__ == "__main__":
    unittest.main()
