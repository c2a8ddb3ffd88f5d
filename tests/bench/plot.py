#!/usr/bin/env python3
"""Draws the rows of bench.c --csv as an SVG, and prints them with those of count.sh as a Markdown table.

    plot.py TIMES COUNTS SVG

TIMES may have the rows of several programs one behind the other: of a row that stands several times the least number of each side counts.
"""
import csv
import itertools
import pathlib
import sys
from xml.sax.saxutils import escape

TABLES = {
    "one": "Table 'one': one line with one child",
    "half": "Table 'half': 16 lines with one child each",
    "full": "Table 'full': 32 lines with one child each",
    "crowded": "Table 'crowded': 32 lines with 7 holds and 8 children each",
    "-": "Calls without a table",
}
TITLE = "How long a call takes, beside its twin in C"
CAPTION = (
    "A bar is the time of a call of the library divided by that of its hand-written twin in C. The dashed line is the twin: a bar that",
    "ends left of it is a faster call, one that ends right of it a slower one. On the right, the nanoseconds of both, the least of all runs.",
)

# All lengths are in pixels; NUMBER is what a ratio takes behind the longest bar.
MARGIN, LABEL, PLOT, NUMBER, VALUES = 20, 100, 190, 40, 110
ROW, BAR, HEAD, TOP = 20, 12, 50, 90
PANEL = LABEL + PLOT + NUMBER + VALUES


def read(name, unit):
    """For each call and table the least number of the library and the least of the twin."""
    rows = {}
    with open(name, encoding="utf-8", newline="") as lines:
        for row in csv.reader(lines):
            if row == ["call", "table", f"library_{unit}", f"twin_{unit}", "ratio"]:
                continue
            call, table, library, twin, _ = row
            numbers = (float(library), float(twin))
            rows[call, table] = tuple(map(min, numbers, rows.get((call, table), numbers)))
    return rows


def shown(number):
    """One place behind the point for small numbers, else none."""
    return f"{number:,.1f}" if number < 100 else f"{number:,.0f}"


def markdown(times, counts):
    lines = [
        "| Call | Table | ns | Twin's ns | Ratio | Instructions | Twin's instructions | Ratio |",
        "|---|---|---:|---:|---:|---:|---:|---:|",
    ]
    for (call, table), (library, twin) in times.items():
        counted, of_twin = counts[call, table]
        lines.append(
            f"| `{call}` | {table} | {shown(library)} | {shown(twin)} | {library / twin:.2f}"
            f" | {counted:,.0f} | {of_twin:,.0f} | {counted / of_twin:.2f} |"
        )
    return "\n".join(lines)


def step_of(most):
    """A round distance of grid lines that gives at most eight of them."""
    return next(step for power in itertools.count(-1) for step in (10**power, 2 * 10**power, 5 * 10**power) if most / step <= 8)


def text(x, y, words, anchor="start", more=""):
    return f'<text x="{x:.1f}" y="{y:.1f}" text-anchor="{anchor}"{more}>{escape(words)}</text>'


def line(x, top, bottom, more):
    return f'<line x1="{x:.1f}" y1="{top}" x2="{x:.1f}" y2="{bottom}" {more}/>'


def panel(left, top, table, rows, most):
    """One table's calls: the bar of each with its ratio, and the nanoseconds of both sides."""
    start, first = left + LABEL, top + HEAD
    bottom, end = first + ROW * len(rows), left + PANEL
    drawn = [
        text(left, top + 14, TABLES.get(table, table), more=' font-weight="bold"'),
        text(start - 8, first - 6, "ratio", "end", ' fill="#555555"'),
        text(end, first - 6, "library / twin, ns", "end", ' fill="#555555"'),
    ]
    step = step_of(most)
    for i in range(int(most / step) + 1):
        x = start + PLOT * i * step / most
        drawn.append(line(x, first, bottom, 'stroke="#dddddd"'))
        drawn.append(text(x, first - 6, f"{i * step:g}", "middle", ' fill="#555555"'))
    for i, (call, (library, twin)) in enumerate(rows):
        y, ratio = first + ROW * i + (ROW - BAR) / 2, library / twin
        length = PLOT * ratio / most
        drawn.append(f'<rect x="{start}" y="{y:.1f}" width="{length:.1f}" height="{BAR}" fill="#7fa8c9"/>')
        drawn.append(text(start - 8, y + 10, call, "end"))
        drawn.append(text(start + max(length, PLOT / most) + 5, y + 10, f"{ratio:.2f}"))
        drawn.append(text(end, y + 10, f"{shown(library)} / {shown(twin)}", "end"))
    return drawn + [line(start + PLOT / most, first, bottom, 'stroke="#000000" stroke-dasharray="4 3"')]


def svg(rows):
    tables = dict.fromkeys(table for _, table in rows)
    panels = [(table, [(call, numbers) for (call, of), numbers in rows.items() if of == table]) for table in tables]
    most = max(1, *(library / twin for library, twin in rows.values()))
    drawn, top = [text(MARGIN, MARGIN + 16, TITLE, more=' font-size="18" font-weight="bold"')], TOP
    drawn += [text(MARGIN, MARGIN + 38 + 17 * i, words) for i, words in enumerate(CAPTION)]
    for i in range(0, len(panels), 2):
        for j, (table, of_table) in enumerate(panels[i:i + 2]):
            drawn += panel(MARGIN + j * (PANEL + MARGIN), top, table, of_table, most)
        top += HEAD + ROW * max(len(of_table) for _, of_table in panels[i:i + 2]) + MARGIN
    width = 3 * MARGIN + 2 * PANEL
    return "\n".join(
        [
            f'<svg xmlns="http://www.w3.org/2000/svg" width="{width}" height="{top}" viewBox="0 0 {width} {top}"'
            ' font-family="sans-serif" font-size="12" role="img">',
            f"<title>{escape(TITLE)}</title>",
            f'<rect width="{width}" height="{top}" fill="#ffffff"/>',
            *drawn,
            "</svg>\n",
        ]
    )


def main():
    if len(sys.argv) != 4:
        sys.exit("usage: plot.py TIMES COUNTS SVG")
    times, counts = read(sys.argv[1], "ns"), read(sys.argv[2], "instructions")
    if not times or times.keys() != counts.keys():
        sys.exit("plot.py: there are no rows, or the two files have different ones")
    pathlib.Path(sys.argv[3]).write_text(svg(times), encoding="utf-8")
    print(markdown(times, counts))


if __name__ == "__main__":
    main()
