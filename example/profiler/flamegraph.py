#!/usr/bin/env python3
"""Draws a flame graph, as an SVG file, of folded stacks: lines of names from the outermost on, joined by `;`, and a number of samples.

    flamegraph.py [TITLE] <FOLDED >SVG

Each box is a function in its callers, as wide as its share of the samples. A pointer on a box shows its name and number.
"""

import html
import sys
import zlib

WIDTH, HEIGHT, TOP, SIDE = 1200, 17, 34, 10
# A box narrower than this isn't drawn. A letter is about this wide.
NARROWEST, LETTER = 0.3, 6.6
HEAD = """<svg xmlns="http://www.w3.org/2000/svg" width="{width}" height="{height}" viewBox="0 0 {width} {height}" font-family="monospace" font-size="11">
<rect width="100%" height="100%" fill="#ffffff"/>
<text x="{middle}" y="22" text-anchor="middle" font-size="15">{title}</text>"""
BOX = """<g><title>{name}: {count} samples, {share:.1f} %</title><rect x="{x:.1f}" y="{y}" width="{width:.1f}" height="{height}" fill="{colour}" rx="1"/>{label}</g>"""
LABEL = """<text x="{x:.1f}" y="{y}">{name}</text>"""


class Node:
    """A function in its callers: the samples that have it there, and the functions that it calls."""

    def __init__(self):
        self.count, self.calls = 0, {}

    def add(self, names, count):
        self.count += count
        if names:
            self.calls.setdefault(names[0], Node()).add(names[1:], count)

    def depth(self):
        return 1 + max((it.depth() for it in self.calls.values()), default=0)


def printable(text):
    """A text with a question mark for each character that XML forbids or that isn't visible."""
    return "".join(it if it.isprintable() else "?" for it in text)


def colour(name):
    """A warm colour that only the name decides."""
    value = zlib.crc32(name.encode())
    return f"#{215 + value % 40:02x}{90 + (value >> 8) % 120:02x}{40 + (value >> 16) % 50:02x}"


def boxes(node, name, x, level, scale, total, bottom):
    width = node.count * scale
    if width < NARROWEST:
        return
    room = int((width - 4) / LETTER)
    shown = name if len(name) <= room else f"{name[: room - 2]}.." if room > 4 else ""
    y = bottom - level * HEIGHT
    label = LABEL.format(x=x + 3, y=y + 12, name=html.escape(shown)) if shown else ""
    values = {"count": node.count, "share": 100 * node.count / total, "colour": colour(name), "label": label}
    yield BOX.format(name=html.escape(name), x=x, y=y, width=max(width - 0.5, 0.2), height=HEIGHT - 1, **values)
    for called in sorted(node.calls):
        yield from boxes(node.calls[called], called, x, level + 1, scale, total, bottom)
        x += node.calls[called].count * scale


def main():
    root = Node()
    # Names are bytes of a file's symbols. An SVG that names no encoding is UTF-8.
    sys.stdin.reconfigure(encoding="utf-8", errors="replace", newline="\n")
    sys.stdout.reconfigure(encoding="utf-8")
    for line in sys.stdin:
        stack, _, count = line.rstrip("\n").rpartition(" ")
        if stack and count.isascii() and count.isdigit():
            root.add(printable(stack).split(";"), int(count))
    if not root.count:
        sys.exit("flamegraph.py: there are no samples")
    height = TOP + root.depth() * HEIGHT + SIDE
    title = html.escape(printable(sys.argv[1]) if len(sys.argv) > 1 else f"{root.count} samples")
    print(HEAD.format(width=WIDTH, height=height, middle=WIDTH // 2, title=title))
    scale = (WIDTH - 2 * SIDE) / root.count
    for box in boxes(root, "all", SIDE, 0, scale, root.count, height - SIDE - HEIGHT):
        print(box)
    print("</svg>")


sys.setrecursionlimit(10000)
main()
