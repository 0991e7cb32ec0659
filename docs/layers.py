#!/usr/bin/env python3
"""Draws the layers of crates: docs/layers.svg, made from crates.txt.

A crate stands in the row above everything that it is built on. A line is drawn for what a crate is built on directly; what it also
reaches over another crate is left out. The programs that run cases, and what only they use, are a line of names below: they are built
on everything. `--check` says whether the drawing is that of crates.txt."""

import pathlib
import re
import sys

TOP = pathlib.Path(__file__).resolve().parent.parent
DRAWING = TOP / "docs" / "layers.svg"
ROW, BOX, GAP, CHARACTER, MARGIN, LEAST = 84, 28, 18, 7.6, 20, 960

# what a crate is, its colour, and the words of the legend
KINDS = {
    "statements": ("#dfe9f7", "definitions and theorems, no code"),
    "library": ("#e4f1df", "proved code that is called"),
    "program": ("#f7ecd2", "programs and the C interface"),
}


def read_crates():
    """The crates of the repository, each with those of the repository that it is built on."""
    crates = {}
    for line in (TOP / "crates.txt").read_text().splitlines():
        match = re.match(r"\s*(\w+)[^:]*:(.*)", line.split("#")[0])
        if match:
            crates[match[1]] = match[2].split()
    return {name: [below for below in names if below in crates] for name, names in crates.items()}


def runs_cases(name):
    return name.endswith("_cases")


def kind_of(name):
    source = TOP / "crates" / name / "src"
    if (source / "main.rt").exists() or name == "jaqhweni":
        return "program"
    text = "".join(path.read_text() for path in sorted(source.glob("*.rt")))
    return "library" if re.search(r"^\s*(pub )?fn ", text, re.M) else "statements"


def heights(crates):
    known = {}

    def height(name):
        if name not in known:
            known[name] = 1 + max((height(below) for below in crates[name]), default=-1)
        return known[name]

    for name in crates:
        height(name)
    return known


def all_below(crates, name):
    found = set()
    waiting = list(crates[name])
    while waiting:
        below = waiting.pop()
        if below not in found:
            found.add(below)
            waiting.extend(crates[below])
    return found


def direct(crates):
    """What each crate is built on, without what it reaches over another."""
    return {
        name: [b for b in names if not any(b in all_below(crates, other) for other in names if other != b)]
        for name, names in crates.items()
    }


def width(name):
    return len(name) * CHARACTER + 18


def placed(crates, lines):
    """The centre of each crate: rows by height, and within a row near what is below, so that lines are short."""
    levels = heights(crates)
    rows = [[n for n in sorted(crates) if levels[n] == k] for k in range(max(levels.values()) + 1)]
    above = {n: [m for m in crates if n in lines[m]] for n in crates}
    whole = max([LEAST] + [sum(width(n) + GAP for n in row) for row in rows])
    centre = {}

    def spread(row):
        free = whole - sum(width(n) for n in row)
        gap = free / (len(row) + 1)
        x = gap
        for n in row:
            centre[n] = x + width(n) / 2
            x += width(n) + gap

    def middle(n, near):
        return sum(centre[m] for m in near) / len(near) if near else centre[n]

    for row in rows:
        spread(row)
    for turn in range(12):
        down = turn % 2 == 0
        for row in rows if down else rows[::-1]:
            row.sort(key=lambda n: (middle(n, lines[n] if down else above[n]), n))
            spread(row)
    return {n: (MARGIN + centre[n], levels[n]) for n in crates}, whole + 2 * MARGIN, len(rows)


def only_for_cases(crates, name):
    """Whether a crate runs cases, or serves nothing but crates that do."""
    users = [user for user in crates if name in crates[user]]
    return runs_cases(name) or (bool(users) and all(only_for_cases(crates, user) for user in users))


def drawing():
    listed = read_crates()
    beside = sorted(name for name in listed if only_for_cases(listed, name))
    crates = {name: below for name, below in listed.items() if name not in beside}
    lines = direct(crates)
    places, wide, rows = placed(crates, lines)
    tall = rows * ROW + 90

    def y(level):
        return (rows - 1 - level) * ROW + MARGIN + BOX

    out = [
        "<!-- Made by docs/layers.py from crates.txt. -->",
        f'<svg xmlns="http://www.w3.org/2000/svg" viewBox="0 0 {wide:.0f} {tall}" font-family="monospace" font-size="12">',
        f'<rect width="{wide:.0f}" height="{tall}" fill="white"/>',
    ]
    for name in sorted(crates):
        x, level = places[name]
        for below in sorted(lines[name]):
            u, under = places[below]
            top, bottom = y(level) + BOX / 2, y(under) - BOX / 2
            bend = (top + bottom) / 2
            out.append(
                f'<path d="M{x:.0f} {top:.0f} C{x:.0f} {bend:.0f} {u:.0f} {bend:.0f} {u:.0f} {bottom:.0f}" fill="none" stroke="#999" stroke-width="0.9"/>'
            )
    for name in sorted(crates):
        x, level = places[name]
        out.append(
            f'<rect x="{x - width(name) / 2:.0f}" y="{y(level) - BOX / 2:.0f}" width="{width(name):.0f}" height="{BOX}" rx="5" '
            f'fill="{KINDS[kind_of(name)][0]}" stroke="#555"/>'
        )
        out.append(f'<text x="{x:.0f}" y="{y(level) + 4:.0f}" text-anchor="middle">{name}</text>')
    x = MARGIN
    for colour, words in KINDS.values():
        out.append(f'<rect x="{x}" y="{tall - 60}" width="16" height="14" rx="3" fill="{colour}" stroke="#555"/>')
        out.append(f'<text x="{x + 22}" y="{tall - 48}">{words}</text>')
        x += 40 + int(len(words) * CHARACTER)
    out.append(f'<text x="{MARGIN}" y="{tall - 20}">programs that run cases, and what only they use: {", ".join(beside)}</text>')
    out.append("</svg>")
    return "\n".join(out) + "\n"


def main(arguments):
    text = drawing()
    if arguments == ["--check"]:
        if not DRAWING.exists() or DRAWING.read_text() != text:
            sys.exit(f"{DRAWING.relative_to(TOP)} is not what docs/layers.py draws: run it")
        return
    if arguments:
        sys.exit(__doc__)
    DRAWING.write_text(text)


if __name__ == "__main__":
    main(sys.argv[1:])
