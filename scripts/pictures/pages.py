#!/usr/bin/env python3
"""pages.py FOLDER: pictures of pages, as a headless Chromium shows them, into a folder.

Without a browser it says so, and the pictures stay as they are.
"""

import os
import subprocess
import sys
import tempfile

TOP = os.path.dirname(os.path.dirname(os.path.dirname(os.path.abspath(__file__))))
sys.path.insert(0, os.path.join(TOP, "tests"))
sys.dont_write_bytecode = True

from browser.chromium import Browser, program  # noqa: E402

SCRIPT = os.path.join(TOP, "scripts", "helgrothy")
LESSONS = """\
maths art music | mon,hall mon,lab tue,hall ann-mon ann-tue
maths mon,hall ann-mon
maths tue,hall ann-tue
art mon,lab ann-mon
art tue,lab
music mon,hall mon,hall
"""


def box(tab, folder, path):
    """The page of a box of pentominoes, at the third solution."""
    page = os.path.join(folder, "box.html")
    with open(page, "wb") as file:
        words = [SCRIPT, "polyominoes", "pentominoes", "6x10", "--limit", "200", "--html"]
        subprocess.run(words, check=True, stdout=file, stderr=subprocess.DEVNULL)
    tab.size(1240, 640)
    tab.go(f"file://{page}")
    for _ in range(2):
        tab.press("ArrowRight")
    tab.screenshot(path)


def page(tab, path):
    """The local page: a text with faults, and what was found of it without them."""
    with subprocess.Popen([SCRIPT, "page"], stdout=subprocess.PIPE, stderr=subprocess.DEVNULL, text=True) as server:
        try:
            tab.size(1200, 720)
            tab.media(prefers_color_scheme="dark")
            tab.go(server.stdout.readline().strip())
            for name, pattern in (("row", "mon|tue"), ("column", "hall|lab")):
                tab.value(f"document.querySelector('#{name}').value = '{pattern}'")
            fill(tab, "".join(LESSONS.splitlines(True)[:4]) + "music mon,hall\n")
            tab.press("Enter", ctrl=True)
            tab.wait("document.querySelector('#stop').disabled && document.querySelector('#picture svg')")
            fill(tab, LESSONS)
            tab.wait("document.querySelectorAll('#remarks li').length > 1")
            tab.value("scrollTo(0, 0)")
            tab.screenshot(path)
        finally:
            server.kill()


def fill(tab, text):
    tab.click("#text")
    tab.press("a", ctrl=True)
    tab.type(text)


def main():
    if program() is None:
        print("no chromium is installed: the pictures of pages stay as they are", file=sys.stderr)
        return
    folder = sys.argv[1]
    with Browser() as browser, tempfile.TemporaryDirectory() as files:
        tab = browser.tab()
        box(tab, files, os.path.join(folder, "box.png"))
        page(tab, os.path.join(folder, "page.png"))


main()
