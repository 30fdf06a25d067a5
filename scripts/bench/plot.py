#!/usr/bin/env python3
"""plot.py PAGE > PICTURE: draws the tables of docs/BENCH.md that have a problem a row, and prints the picture as SVG.

The figures are read from the page itself, so a picture and its tables can't differ. For each problem there is a bar
for fast C: this solver's time over its, on a logarithmic scale, from the line at 1 to the left where this solver is
faster and to the right where it is slower.
"""

import math
import re
import sys
from html import escape

# The columns that are drawn, each with its name in the picture and a colour that light and dark ground both show.
SERIES = {"fast": ("fast C", "#d9730d")}
MEAN = "geometric mean"
TICKS = [figure * 10.0**power for power in range(-3, 4) for figure in (1, 2, 5)]

WIDTH, LEFT, RIGHT, TOP = 780, 196, 40, 86
BAR, GAP, LABEL = 11, 10, 36

STYLE = """\
<style>
.ground { fill: #fff } .ink, .figure { fill: #1f2328 } .pale { fill: #59636e }
.grid { stroke: #d9dee3 } .one { stroke: #1f2328 }
.figure { stroke: #fff; stroke-width: 3; paint-order: stroke }
@media (prefers-color-scheme: dark) {
.ground { fill: #0d1117 } .ink, .figure { fill: #e6edf3 } .pale { fill: #9198a1 }
.grid { stroke: #2d333b } .one { stroke: #e6edf3 }
.figure { stroke: #0d1117 }
}
</style>"""


def tables(page):
    """Each table of a page, as its head and its rows."""
    found, rows = [], []
    for line in [*page.splitlines(), ""]:
        if line.startswith("|"):
            rows.append([cell.strip().strip("*") for cell in line.strip("|").split("|")])
        elif rows:
            found.append((rows[0], rows[2:]))
            rows = []
    return found


def ratios(page):
    """For each problem, in the page's order, its program, and by column the ratio as it is written and as a number."""
    programs, cells, drawn = {}, {}, set()
    for head, rows in tables(page):
        columns = [column for column in head if column in SERIES]
        if head[0] != "Problem" or not columns:
            continue
        drawn.update(columns)
        for row in (dict(zip(head, row)) for row in rows):
            name = row["Problem"]
            if name.startswith("memory"):
                continue
            if "Program" in row:
                programs[name] = row["Program"].strip("`")
            for column in filter(row.get, columns):
                number = re.fullmatch(r"(?:< )?(\d+\.\d+)", row[column])
                if not number or column in cells.setdefault(name, {}):
                    sys.exit(f"plot.py: {name}, {column}: no ratio, or a second one: {row[column]}")
                cells[name][column] = row[column], float(number.group(1))
    if drawn != set(SERIES):
        sys.exit(f"plot.py: the page has no column {', '.join(sorted(set(SERIES) - drawn))}")
    means = [cells.pop(MEAN)] if MEAN in cells else []
    return [(name, programs.get(name, ""), found) for name, found in [*cells.items(), *((MEAN, m) for m in means)]]


def text(x, y, words, kind="ink", **more):
    given = "".join(f' {name.replace("_", "-")}="{value}"' for name, value in more.items())
    return f'<text class="{kind}" x="{x:.1f}" y="{y:.1f}"{given}>{escape(words)}</text>'


def picture(rows):
    numbers = [number for _, _, found in rows for _, number in found.values()]
    low = max(tick for tick in TICKS if tick <= min(numbers + [1]))
    high = min(tick for tick in TICKS if tick >= max(numbers + [1]))
    begin, end = LEFT + LABEL, WIDTH - RIGHT

    def at(ratio):
        return begin + (end - begin) * math.log(ratio / low) / math.log(high / low)

    # The figures lie below the bars, so that their edges hide the lines of the scale and no bar.
    names, figures, bars, y = [], [], [], TOP + GAP
    for name, program, found in rows:
        if name == MEAN:
            names.append(f'<path class="one" d="M12 {y - GAP / 2:.1f}H{WIDTH - 12}"/>')
            y += GAP / 2
        middle = y + BAR * len(found) / 2 + 4
        names.append(text(LEFT - 40, middle, name, text_anchor="end", font_weight="bold" if name == MEAN else "normal"))
        if program:
            names.append(text(LEFT - 34, middle, program, "pale", font_size=11))
        for column in filter(found.get, SERIES):
            written, number = found[column]
            x, width = min(at(number), at(1)), max(abs(at(number) - at(1)), 1)
            size = f'width="{width:.1f}" height="{BAR - 1}"'
            bars.append(f'<rect x="{x:.1f}" y="{y:.1f}" {size} fill="{SERIES[column][1]}"/>')
            side, anchor = (-4, "end") if number < 1 else (width + 4, "start")
            figures.append(text(x + side, y + BAR - 2.2, written, "figure", font_size=10, text_anchor=anchor))
            y += BAR
        y += GAP
    bottom = y - GAP / 2

    lines = [
        f'<svg xmlns="http://www.w3.org/2000/svg" width="{WIDTH}" height="{bottom + 30:.0f}" '
        f'viewBox="0 0 {WIDTH} {bottom + 30:.0f}" font-family="sans-serif" font-size="13">',
        "<title>this solver's time over that of fast C, problem by problem</title>",
        STYLE,
        f'<rect class="ground" width="{WIDTH}" height="{bottom + 30:.0f}"/>',
        text(12, 24, "CPU time of this solver, divided by that of another (logarithmic scale)", font_size=15),
    ]
    x = 12
    for words, colour in SERIES.values():
        lines.append(f'<rect x="{x}" y="36" width="12" height="12" fill="{colour}"/>')
        lines.append(text(x + 17, 46.5, words))
        x += 90
    lines.append(text(at(1) - 10, 66, "← this solver is faster", "pale", text_anchor="end", font_size=11))
    lines.append(text(at(1) + 10, 66, "slower →", "pale", font_size=11))
    for tick in (tick for tick in TICKS if low <= tick <= high):
        kind = "one" if tick == 1 else "grid"
        lines.append(f'<path class="{kind}" d="M{at(tick):.1f} {TOP}V{bottom:.1f}"/>')
        for height in (TOP - 5, bottom + 14):
            lines.append(text(at(tick), height, f"{tick:g}", "pale", text_anchor="middle", font_size=11))
    return "\n".join([*lines, *names, *figures, *bars, "</svg>"])


def main():
    if len(sys.argv) != 2:
        sys.exit(__doc__)
    with open(sys.argv[1], encoding="utf-8") as page:
        print(picture(ratios(page.read())).encode("ascii", "xmlcharrefreplace").decode())


if __name__ == "__main__":
    main()
