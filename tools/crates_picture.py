#!/usr/bin/env python3
"""Makes docs/crates.svg from crates.txt: each crate above those that it stands on. A line that others already tell is left out.

usage: python3 tools/crates_picture.py            writes the picture
       python3 tools/crates_picture.py --check    compares it; status 1 where it isn't what would be written
"""
import pathlib
import sys

sys.dont_write_bytecode = True
import definitions

ROOT = pathlib.Path(__file__).resolve().parent.parent
PICTURE = ROOT / "docs" / "crates.svg"
WIDE, HIGH, ACROSS, DOWN, EDGE, BEND = 104, 26, 14, 34, 16, 0.22
COLOURS = ("#dbe9f6", "#e3f1de", "#f8ecd0", "#f6dfdc", "#e9e1f3", "#ececec")
STYLE = (
    "text { font: 12px sans-serif; fill: #222; text-anchor: middle } .band { text-anchor: start; font-size: 11px } "
    "path { fill: none; stroke: #777; stroke-width: 1 } rect { stroke: #777 } "
    "@media (prefers-color-scheme: dark) { .band { fill: #ddd } path { stroke: #aaa } }"
)


def read():
    """The crates' bands by their numbers, the bands' names, and on which crates each stands."""
    names, band, below = [], {}, {}
    for line in definitions.lines_of_crates():
        if line.startswith("#"):
            names.append(line[1:].strip())
        elif line.strip():
            name, _, words = line.partition(":")
            name = name.split()[0]
            band[name] = len(names) - 1
            below[name] = words.split()
    return names, band, {name: [it for it in words if it in below] for name, words in below.items()}


def reduced(below):
    """Of what each crate stands on, what no other of these stands on."""

    def all_below(name, seen):
        for it in below[name]:
            if it not in seen:
                seen.add(it)
                all_below(it, seen)
        return seen

    return {name: [it for it in words if not any(it in all_below(other, set()) for other in words if other != it)] for name, words in below.items()}


def heights(below):
    """How high each crate stands: one more than the highest that it stands on."""
    found = {}

    def height(name):
        if name not in found:
            found[name] = 1 + max((height(it) for it in below[name]), default=-1)
        return found[name]

    for name in below:
        height(name)
    return found


def threaded(below, high):
    """The same with a bend, named by its line and row, wherever a line goes past a row: so that each line leads to the next row."""
    found = {name: [] for name in below}
    for name, words in below.items():
        for it in words:
            at = name
            for level in range(high[name] - 1, high[it], -1):
                bend = (name, it, level)
                found[at].append(bend)
                found[bend] = []
                at = bend
            found[at].append(it)
    return found


def row_of(item, high):
    return item[2] if isinstance(item, tuple) else high[item]


def spread(row, widest):
    """Where the items of a row stand: boxes take one, and bends a part of it."""
    sizes = [BEND if isinstance(item, tuple) else 1 for item in row]
    room = (widest - sum(sizes)) / len(row)
    at, found = 0, {}
    for item, size in zip(row, sizes):
        found[item] = at + (size + room) / 2
        at += size + room
    return found


def placed(lines, high):
    """Where each box and each bend stands: rows from the lowest, each in an order in which lines cross little."""
    rows = [[item for item in lines if row_of(item, high) == level] for level in range(max(high.values()) + 1)]
    above = {item: [] for item in lines}
    for item, words in lines.items():
        for it in words:
            above[it].append(item)
    widest = max(sum(BEND if isinstance(item, tuple) else 1 for item in row) for row in rows)
    at = {}
    for row in rows:
        at.update(spread(row, widest))
    for turn in range(40):
        near = lines if turn % 2 == 0 else above
        for row in rows if turn % 2 == 0 else reversed(rows):
            want = {item: sum(at[it] for it in near[item]) / len(near[item]) if near[item] else at[item] for item in row}
            row.sort(key=lambda item: (want[item], str(item)))
            at.update(spread(row, widest))
    return at, widest


def picture():
    """The whole picture."""
    bands, band, below = read()
    below = reduced(below)
    high = heights(below)
    lines = threaded(below, high)
    at, widest = placed(lines, high)
    width = int(widest * (WIDE + ACROSS) + 2 * EDGE)
    base = EDGE + max(high.values()) * (HIGH + DOWN)
    height = base + HIGH + 3 * EDGE + 18 * ((len(bands) + 2) // 3)

    def across(item):
        return EDGE + at[item] * (WIDE + ACROSS)

    def top(item):
        return base - row_of(item, high) * (HIGH + DOWN)

    parts = [
        f'<svg xmlns="http://www.w3.org/2000/svg" role="img" width="{width}" height="{height}" viewBox="0 0 {width} {height}">',
        "<title>The crates, each above those that it stands on</title>",
        f"<style>{STYLE}</style>",
    ]
    for item, words in lines.items():
        for it in words:
            x, y, to_x, to_y = across(item), top(item) + HIGH, across(it), top(it)
            bend = (to_y - y) / 2
            parts.append(f'<path d="M{x:.0f} {y:.0f}C{x:.0f} {y + bend:.0f} {to_x:.0f} {to_y - bend:.0f} {to_x:.0f} {to_y:.0f}"/>')
        if isinstance(item, tuple):
            parts.append(f'<path d="M{across(item):.0f} {top(item):.0f}v{HIGH}"/>')
    for name in below:
        x, y = across(name) - WIDE / 2, top(name)
        parts.append(f'<rect x="{x:.0f}" y="{y:.0f}" width="{WIDE}" height="{HIGH}" rx="4" fill="{COLOURS[band[name] % len(COLOURS)]}"/>')
        parts.append(f'<text x="{x + WIDE / 2:.0f}" y="{y + 17:.0f}">{name}</text>')
    for index, name in enumerate(bands):
        x, y = EDGE + (0, 0.4, 0.75)[index % 3] * (width - 2 * EDGE), base + HIGH + 2 * EDGE + 18 * (index // 3)
        parts.append(f'<rect x="{x:.0f}" y="{y:.0f}" width="12" height="12" fill="{COLOURS[index % len(COLOURS)]}"/>')
        parts.append(f'<text class="band" x="{x + 18:.0f}" y="{y + 10:.0f}">{name}</text>')
    return "\n".join(parts + ["</svg>", ""])


def main():
    if sys.argv[1:] == ["--check"]:
        if PICTURE.read_text(encoding="utf-8") != picture():
            sys.exit("docs/crates.svg isn't what tools/crates_picture.py writes: run it")
    elif sys.argv[1:]:
        sys.exit(__doc__.strip())
    else:
        PICTURE.write_text(picture(), encoding="utf-8")


if __name__ == "__main__":
    main()
