#!/usr/bin/env python3
"""completion.py SHELL FILE: types beginnings of commands into a bash, zsh or fish that has read FILE, and Tab behind.

Prints the lines that the shell doesn't make of them what it should, and nothing else. A shell that isn't installed has
nothing to print.
"""
import os
import pty
import select
import shutil
import subprocess
import sys
import tempfile

# A command's beginning, and what Tab makes of it.
LINES = [
    ("dlx1 m10", "dlx1 m1000 "),
    ("dlxcheck q", "dlxcheck queens.dlx "),
    ("dlxcheck fol", "dlxcheck folder/"),
    ("dlx-span 1 m0", "dlx-span 1 m0 "),
    ("dlx-join m1 not", "dlx-join m1 notes.txt "),
    ("dlx-join m1 notes.txt not", "dlx-join m1 notes.txt notes.txt "),
    ("dlx-count 1 b", "dlx-count 1 b512 "),
    ("dlx-count 1 b512 o", "dlx-count 1 b512 o "),
    ("helgrothy --ver", "helgrothy --version "),
    ("helgrothy su", "helgrothy sudoku "),
    ("helgrothy make polyo", "helgrothy make polyominoes "),
    ("helgrothy make roster --r", "helgrothy make roster --rest "),
    ("helgrothy make roster not", "helgrothy make roster notes.txt "),
    ("helgrothy polyforms hexi", "helgrothy polyforms hexiamonds "),
    ("helgrothy solve --cell r --grid tri", "helgrothy solve --cell r --grid triangle "),
    ("helgrothy polyominoes pen", "helgrothy polyominoes pentominoes "),
    ("helgrothy polyominoes pentominoes not", "helgrothy polyominoes pentominoes notes.txt "),
    ("helgrothy polyominoes --no-t", "helgrothy polyominoes --no-turns "),
    ("helgrothy queens 8 --sv", "helgrothy queens 8 --svg "),
    ("helgrothy solve --nu", "helgrothy solve --number "),
    ("helgrothy solve --number 3 q", "helgrothy solve --number 3 queens.dlx "),
    ("helgrothy solve queens.dlx --js", "helgrothy solve queens.dlx --json "),
    ("helgrothy draw q", "helgrothy draw queens.dlx "),
    ("helgrothy draw --cell r q", "helgrothy draw --cell r queens.dlx "),
    ("helgrothy lint --f", "helgrothy lint --for "),
    ("helgrothy lint --for dlx1 q", "helgrothy lint --for dlx1 queens.dlx "),
    ("helgrothy export as", "helgrothy export asp "),
    ("helgrothy export asp q", "helgrothy export asp queens.dlx "),
    ("helgrothy cou", "helgrothy count "),
    ("helgrothy count q", "helgrothy count queens.dlx "),
    ("helgrothy queens 8 --cou", "helgrothy queens 8 --count "),
    ("helgrothy why --sec", "helgrothy why --seconds "),
    ("helgrothy sea", "helgrothy search "),
    ("helgrothy search q", "helgrothy search queens.dlx "),
    ("helgrothy search --folder f", "helgrothy search --folder folder/"),
    ("helgrothy search queens.dlx --j", "helgrothy search queens.dlx --jobs "),
    ("helgrothy search --status f", "helgrothy search --status folder/"),
    ("helgrothy search --result f", "helgrothy search --result folder/"),
    ("helgrothy search queens.dlx --ro", "helgrothy search queens.dlx --rows "),
]
# Of several words that fit bash makes what they have in common. It has redirections completed, as others do themselves.
BASH = [
    ("dlx3 m1 t", "dlx3 m1 t"),
    ("dlx1 < q", "dlx1 < queens.dlx "),
    ("dlx1 m1 <q", "dlx1 m1 <queens.dlx "),
    ("dlx2 m1 > not", "dlx2 m1 > notes.txt "),
    ("dlx2 not", "dlx2 not"),
    ("dlxcheck not", "dlxcheck notes.txt "),
    ("dlxcheck a", "dlxcheck a\\ b.dlx "),
    ("dlxcheck queens.dlx 1 < not", "dlxcheck queens.dlx 1 < notes.txt "),
    ("dlx-span 1 ", "dlx-span 1 m"),
    ("dlx-span 1 m1 0 - 3.1 < q", "dlx-span 1 m1 0 - 3.1 < queens.dlx "),
    ("helgrothy lint --for ", "helgrothy lint --for dlx"),
    ("helgrothy lint --for=dlx", "helgrothy lint --for=dlx"),
]
PREPARED = {
    "bash": 'PS1="> "; bind "set enable-bracketed-paste off"; bind "set bell-style none"; . "{file}"\n',
    # A file of completion is a function's body, which compinit finds by its first line.
    "zsh": "PS1='> '; unsetopt zle_bracketed_paste prompt_cr prompt_sp; unset zle_bracketed_paste; setopt no_beep; "
    "fpath=({folder}/zsh $fpath); autoload -Uz compinit; compinit -u -D\n",
}
STARTED = {"bash": ["bash", "--norc", "--noprofile", "-i"], "zsh": ["zsh", "-f", "-i"]}


def told(terminal, seconds):
    """What comes until nothing has come for a while."""
    text = b""
    while select.select([terminal], [], [], seconds)[0]:
        text += os.read(terminal, 4096)
    return text.decode()


def typed(shell, file, folder, lines):
    """What a shell at a terminal makes of each line."""
    child, terminal = pty.fork()
    if child == 0:
        os.environ["TERM"] = "dumb"
        os.execvp(shell, STARTED[shell])
    os.write(terminal, PREPARED[shell].format(file=file, folder=folder).encode())
    told(terminal, 1.5)
    for line, _ in lines:
        os.write(terminal, line.encode() + b"\t")
        made = told(terminal, 0.4)
        os.write(terminal, b"\x15")
        told(terminal, 0.1)
        yield made
    # Without its terminal a shell ends.
    os.close(terminal)
    os.waitpid(child, 0)


def by_fish(file, lines):
    """What fish makes of each line, where one word alone fits."""
    for line, _ in lines:
        asked = "source $argv[1]; complete -C $argv[2]"
        run = subprocess.run(["fish", "--no-config", "-c", asked, file, line], capture_output=True, text=True)
        found = {row.split("\t")[0] for row in run.stdout.splitlines()}
        if len(found) != 1 or run.stderr:
            yield f"{sorted(found)} {run.stderr}"
            continue
        word = found.pop()
        yield f"{line.rpartition(' ')[0]} {word}{'' if word.endswith('/') else ' '}"


def main():
    shell, file = sys.argv[1], os.path.abspath(sys.argv[2])
    if not shutil.which(shell):
        return
    lines = LINES + BASH if shell == "bash" else LINES
    with tempfile.TemporaryDirectory() as folder:
        os.chdir(folder)
        os.mkdir("folder")
        for name in ("queens.dlx", "notes.txt", "a b.dlx"):
            open(name, "w").close()
        os.mkdir("zsh")
        shutil.copy(file, "zsh/_helgrothy")
        made = by_fish(file, lines) if shell == "fish" else typed(shell, file, folder, lines)
        for (line, wanted), got in zip(lines, made):
            if got != wanted:
                print(f"{shell}: {line!r} became {got!r} and not {wanted!r}")


main()
