#!/usr/bin/env python3
"""Draws the layers of crates.txt: a band for each group of lines under a comment, a box for each crate, and at its right the bands that it uses.

    tools/draw_layers.py            writes docs/layers.svg
    tools/draw_layers.py --check    says whether docs/layers.svg is what it would write; exit 1 if not
"""
import html
import sys
from pathlib import Path

PICTURE = Path("docs/layers.svg")

WIDE, LEFT, ROW, BOX, GAP = 1080, 16, 26, 8, 8
SIDE = 190  # what is kept at the right for the bands that a band uses
LETTER = 7.0  # the width of a letter of a crate's name


def bands():
    """The groups of crates.txt: what its comment says, and its crates with what they list."""
    groups = []
    for line in Path("crates.txt").read_text().splitlines():
        if line.startswith("#"):
            if not groups or groups[-1][1]:
                groups.append(["", {}])
            groups[-1][0] = (groups[-1][0] + " " + line.lstrip("# ")).strip()
        elif ":" in line:
            name, _, uses = line.partition(":")
            groups[-1][1][name.split()[0]] = uses.split()
    return groups


def rows(names):
    """The boxes of a band in rows: (x, name, width) in each."""
    at, row = LEFT, []
    for name in names:
        wide = len(name) * LETTER + 2 * BOX
        if at + wide > WIDE - SIDE and row:
            yield row
            at, row = LEFT, []
        row.append((at, name, wide))
        at += wide + GAP
    if row:
        yield row


def text(x, y, words, kind):
    return f'<text x="{x:g}" y="{y:g}" class="{kind}">{html.escape(words)}</text>'


def used(crates, groups):
    """The numbers of the bands that a band's crates use, its own left out."""
    uses = {use for listed in crates.values() for use in listed}
    return [k for k, (_, others) in enumerate(groups, 1) if others is not crates and uses & set(others)]


def band(number, title, crates, groups, top):
    """A band's drawing, and where it ends."""
    drawn = [text(LEFT, top + 17, f"{number}  {title}", "title")]
    y = top + 26
    for row in rows(crates):
        for x, name, wide in row:
            drawn.append(f'<rect x="{x:g}" y="{y:g}" width="{wide:g}" height="{ROW - 4}" rx="3" class="crate"/>')
            drawn.append(text(x + BOX, y + 15, name, "name"))
        y += ROW
    below = used(crates, groups)
    if below:
        drawn.append(text(WIDE - SIDE + 12, top + 41, "uses " + ", ".join(map(str, below)), "uses"))
    frame = f'<rect x="4" y="{top:g}" width="{WIDE - 8}" height="{y - top + 4:g}" rx="6" class="band"/>'
    return [frame] + drawn, y + 12


STYLE = """text { font-family: sans-serif; font-size: 13px; fill: #222 }
.title { font-weight: bold } .name { font-family: monospace; font-size: 11.6px } .uses { fill: #555; font-size: 12px }
.band { fill: #f4f6f8; stroke: #c8d0d8 } .crate { fill: #fff; stroke: #7a8a99 }"""


def drawing():
    groups = bands()
    drawn, top = [], 6
    for number, (title, crates) in enumerate(groups, 1):
        more, top = band(number, title, crates, groups, top)
        drawn += more
    head = f'<svg xmlns="http://www.w3.org/2000/svg" width="{WIDE}" height="{top:g}" viewBox="0 0 {WIDE} {top:g}">'
    return "\n".join([head, f"<style>{STYLE}</style>", *drawn, "</svg>"]) + "\n"


def main():
    if "--check" in sys.argv:
        if not PICTURE.is_file() or PICTURE.read_text() != drawing():
            print(f"draw_layers: {PICTURE} is not what crates.txt says: tools/draw_layers.py writes it anew")
            sys.exit(1)
        print(f"draw_layers: {PICTURE} is what crates.txt says")
        return
    PICTURE.write_text(drawing())


if __name__ == "__main__":
    main()
