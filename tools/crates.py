#!/usr/bin/env python3
"""Draws what depends on what, from crates.txt, as an SVG picture.

    python3 tools/crates.py [CRATES] > docs/crates.svg

A box for each crate of the repository, with the crates of the kit that it uses in small letters. A row has the
crates whose longest chain down to the lowest row is equally long. A line goes down from a crate to one that it depends
on; it is left out where it depends on that one through another already.
"""
import sys
from pathlib import Path
from xml.sax.saxutils import escape

BOX, HIGH, ACROSS, BEND, DOWN, EDGE = 128, 40, 16, 12, 60, 16
LINE, FILL, INK, GREY = "#5b7fa6", "#eaf1f8", "#1f2f3f", "#6b6b6b"
SWEEPS = 24


def read(path):
    """What each crate is said to depend on, by its name: crates of the file, and those of the kit."""
    listed = {}
    for line in path.read_text(encoding="utf-8").splitlines():
        name, colon, libraries = line.partition("#")[0].partition(":")
        if colon:
            listed[name.split()[0]] = libraries.split()
    own = {name: [below for below in libraries if below in listed] for name, libraries in listed.items()}
    kit = {name: [below for below in libraries if below not in listed] for name, libraries in listed.items()}
    return own, kit


def rows_of(own):
    """The crates in rows, those that depend on no other first."""
    level = {}
    while len(level) < len(own):
        ready = [name for name in own if name not in level and all(below in level for below in own[name])]
        if not ready:
            sys.exit("crates.py: crates depend on one another in a ring")
        for name in ready:
            level[name] = 1 + max((level[below] for below in own[name]), default=-1)
    return [[name for name in own if level[name] == row] for row in range(max(level.values()) + 1)]


def direct(own):
    """What each crate depends on through no other."""
    reached = {}
    for row in rows_of(own):
        for name in row:
            reached[name] = set(own[name]).union(*(reached[below] for below in own[name]))
    return {name: [below for below in libraries if not any(below in reached[other] for other in libraries)]
            for name, libraries in own.items()}


def with_bends(rows, lines):
    """The rows with a bend in each row that a line passes, and what each crate and each bend goes down to."""
    row_of = {name: number for number, row in enumerate(rows) for name in row}
    rows, down = [list(row) for row in rows], {name: [] for name in row_of}
    for name, libraries in lines.items():
        for below in libraries:
            upper = name
            for number in range(row_of[name] - 1, row_of[below], -1):
                bend = (name, below, number)
                rows[number].append(bend)
                down[upper].append(bend)
                down[bend], upper = [], bend
            down[upper].append(below)
    return rows, down


def wide(item):
    """How much room a crate or a bend takes in its row."""
    return BOX + ACROSS if isinstance(item, str) else BEND


def places(rows, down):
    """Where each crate and each bend is across, near those that its lines go to and come from."""
    up = {item: [other for other in down if item in down[other]] for item in down}
    width = max(sum(map(wide, row)) for row in rows)
    across = {}

    def settle(row):
        at = (width - sum(map(wide, row))) / 2
        for item in row:
            across[item] = at + wide(item) / 2
            at += wide(item)

    for row in rows:
        settle(row)
    for sweep in range(SWEEPS):
        near = down if sweep % 2 == 0 else up
        for row in rows if sweep % 2 == 0 else reversed(rows):
            row.sort(key=lambda item: sum(across[other] for other in near[item]) / len(near[item])
                     if near[item] else across[item])
            settle(row)
    return across, width


def picture(own, kit):
    """The lines of the picture."""
    rows, down = with_bends(rows_of(own), direct(own))
    across, width = places(rows, down)
    width, height = width + 2 * EDGE, len(rows) * (HIGH + DOWN) - DOWN + 2 * EDGE
    top = {item: height - EDGE - HIGH - number * (HIGH + DOWN) for number, row in enumerate(rows) for item in row}
    yield (f'<svg xmlns="http://www.w3.org/2000/svg" width="{width}" height="{height}" viewBox="0 0 {width} {height}" '
           f'font-family="sans-serif" text-anchor="middle">')
    yield f'<rect width="{width}" height="{height}" fill="white"/>'
    for item, lower in down.items():
        x0 = across[item] + EDGE
        if not isinstance(item, str):
            yield f'<path d="M{x0:.0f} {top[item]} v{HIGH}" fill="none" stroke="{LINE}"/>'
        for below in lower:
            x1, y0, y1 = across[below] + EDGE, top[item] + HIGH, top[below]
            half = (y1 - y0) / 2
            yield (f'<path d="M{x0:.0f} {y0} C{x0:.0f} {y0 + half:.0f} {x1:.0f} {y1 - half:.0f} {x1:.0f} {y1}" '
                   f'fill="none" stroke="{LINE}"/>')
    for name in own:
        x, y, libraries = across[name] + EDGE, top[name], " ".join(kit[name])
        yield (f'<rect x="{x - BOX / 2:.0f}" y="{y}" width="{BOX}" height="{HIGH}" rx="4" fill="{FILL}" '
               f'stroke="{LINE}"/>')
        yield (f'<text x="{x:.0f}" y="{y + (17 if libraries else 25)}" font-size="13" fill="{INK}">'
               f'{escape(name)}</text>')
        if libraries:
            yield f'<text x="{x:.0f}" y="{y + 32}" font-size="9" fill="{GREY}">{escape(libraries)}</text>'
    yield "</svg>"


def main(words):
    if words in (["-h"], ["--help"]):
        print(__doc__)
        return
    path = Path(words[0]) if words else Path(__file__).resolve().parent.parent / "crates.txt"
    try:
        print("\n".join(picture(*read(path))))
    except OSError as fault:
        sys.exit(f"crates.py: {fault}")


if __name__ == "__main__":
    main(sys.argv[1:])
