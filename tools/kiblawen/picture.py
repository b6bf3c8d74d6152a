"""Draws the picture of the crates, docs/crates.svg, from crates.txt.

    ./x picture             prints it
    ./x picture --write     writes it
    ./x picture --check     fails if docs/crates.svg differs

A box names crates of one kind. An arrow leads from a box to one that it uses. None is drawn if other arrows lead to that
box, too, or to the lowest box, which all use. The table BOXES says which crates a box has, of which group it is, and
where the box is. A crate without a box, names without room, and an arrow without a way between the boxes are errors.
"""

import os
import sys
from xml.sax.saxutils import escape

from kiblawen import common

PICTURE = common.at_top("docs", "crates.svg")
# The groups, with the colour of the bar at the left of a box.
GROUPS = {"outside": "#8c8c8c", "ELF": "#b5812f", "DWARF": "#3f86c9", "SFrame": "#3c9f60", "linking": "#a263c4", "program": "#c75d50"}
# Each box: its title, its crates, its group, its row from above, and its left and right edge.
BOXES = (
    ("tests", "base_tests elf_dwarf_tests sframe_tests core_tests sf_tests", "program", 0, 10, 290),
    ("", "sf_words sf_gen sf_text process_walk process_tables section_commands sf_run sf_tool", "program", 0, 330, 930),
    ("", "frame_functions sf_asm sf_link sf_plt module_tables sf_verify sf_link_c", "linking", 1, 10, 730),
    ("merging, Version 3", "sf_merge sf_slim sf3_model sf3_write sf3_upgrade", "SFrame", 2, 270, 490),
    ("walks", "core_walk core_parts sf_c sample_walk sf_modules", "SFrame", 2, 720, 930),
    ("writing", "sf_express sf_sizes sf_write sf_functions", "SFrame", 3, 310, 490),
    ("core files, pages", "core_notes elf_load elf_mapped", "ELF", 3, 510, 680),
    ("records", "eh_pointer eh_records", "DWARF", 4, 10, 190),
    ("instructions", "cfa_insn cfa_machine signal_frames", "DWARF", 4, 210, 390),
    ("reading", "sf_decode sf_lookup", "SFrame", 4, 410, 590),
    ("files", "elf_read sf_parts elf_place elf_groups elf_reloc", "ELF", 4, 610, 860),
    ("files, streams, bytes, shared types", "sf_base sf_fakes sf_bytes sf_model", "outside", 5, 10, 930),
)
WIDTH, BOX_HEIGHT, ROW, MARGIN, BAR = 940, 66, 96, 10, 4
# How wide a letter of a name is, the room at the sides of a box, and how many lines of names it has room for.
LETTER, PADDING, LINES = 7.3, 12, 2
# How near an arrow may come to the end of a box's edge and to another arrow, and how near to a box that it passes.
APART, CLEAR = 10, 24
STYLE = """
    svg { color: #24292f; font: 13px system-ui, "DejaVu Sans", sans-serif }
    @media (prefers-color-scheme: dark) { svg { color: #e6edf3 } }
    text { fill: currentColor }
    .group { font-weight: bold }
    .names { font: 12px ui-monospace, "DejaVu Sans Mono", monospace }
    .box, .arrow { fill: none; stroke: currentColor; stroke-opacity: 0.6 }
    .head { fill: currentColor; fill-opacity: 0.6 }
"""


class Box:
    """A box of the picture, with its crates that there are."""

    def __init__(self, title, crates, group, row, left, right):
        self.title, self.crates, self.group, self.row, self.left, self.right = title, crates, group, row, left, right
        self.top = MARGIN + ROW * row
        self.bottom = self.top + BOX_HEIGHT
        self.middle = self.top + BOX_HEIGHT // 2

    def lines(self):
        """The names of its crates, in as few lines as have room for them."""
        found = [""]
        for name in self.crates:
            longer = f"{found[-1]} {name}".strip()
            if LETTER * len(longer) <= self.right - self.left - 2 * PADDING:
                found[-1] = longer
            else:
                found.append(name)
        if len(found) > LINES:
            common.fail(__name__, f"{' '.join(self.crates)}: the box has no room for {len(found)} lines of names")
        return found

    def drawn(self):
        yield f'<rect class="box" x="{self.left}" y="{self.top}" width="{self.right - self.left}" height="{BOX_HEIGHT}" rx="5"/>'
        yield f'<rect fill="{GROUPS[self.group]}" x="{self.left}" y="{self.top + 5}" width="{BAR}" height="{BOX_HEIGHT - 10}"/>'
        group, x = escape(self.group), self.left + PADDING
        lines = self.lines()
        y = self.middle + 5 - 8 * len(lines)
        title = f": {escape(self.title)}" if self.title else ""
        yield f'<text x="{x}" y="{y}"><tspan class="group">{group}</tspan>{title}</text>'
        for at, line in enumerate(lines, 1):
            yield f'<text class="names" x="{x}" y="{y + 1 + 16 * at}">{escape(line)}</text>'


def read():
    """The crates of crates.txt: all that each uses, in however many steps."""
    used = {}
    with open(common.at_top("crates.txt"), encoding="utf-8") as file:
        for line in file:
            words, colon, below = line.partition("#")[0].partition(":")
            if colon:
                used[words.split()[0]] = set(below.split())
    for name in used:
        more = used[name]
        while more:
            more = set().union(*(used.get(it, ()) for it in more)) - used[name]
            used[name] |= more
    return used


def placed(used):
    """The boxes, by the table and the crates that there are."""
    left = set(used)
    boxes = []
    for title, names, group, row, begin, end in BOXES:
        crates = [it for it in names.split() if it in left]
        # A crate of tests is one of the box for tests, whatever its name is besides.
        crates += sorted(it for it in left.difference(crates) if title == "tests" and it.endswith("tests"))
        left.difference_update(crates)
        if crates:
            boxes.append(Box(title, crates, group, row, begin, end))
    if left:
        common.fail(__name__, f"{', '.join(sorted(left))}: BOXES in tools/kiblawen/picture.py has no box for it")
    return boxes


def arrows(boxes, used):
    """The arrows: the pairs of boxes of which one uses the other, but for those that others lead to, and for the lowest box."""
    lowest = max(boxes, key=lambda it: it.row)
    uses = {it: [to for to in boxes if to is not it and any(used[name].intersection(to.crates) for name in it.crates)] for it in boxes}
    for box in boxes:
        if box is not lowest and lowest not in uses[box]:
            common.fail(__name__, f"{' '.join(box.crates)} uses nothing of the lowest box, and the picture says that all do")
    for box in boxes:
        for to in uses[box]:
            if to is not lowest and not any(to in uses[between] for between in uses[box]):
                yield box, to


def is_free(boxes, left, right, top, bottom):
    """Whether no box is nearer than CLEAR to the left or right of these edges."""
    return not any(it.left - CLEAR < right and left < it.right + CLEAR and it.top < bottom and top < it.bottom for it in boxes)


def way(box, to, boxes, taken):
    """The corners of an arrow from a box to another: straight down, or along a row, or down and then along."""
    others = [it for it in boxes if it not in (box, to)]
    if box.row == to.row:
        begin, end = (box.right, to.left) if box.right < to.left else (box.left, to.right)
        if is_free(others, min(begin, end) + CLEAR, max(begin, end) - CLEAR, box.middle, box.middle + 1):
            return [(begin, box.middle), (end, box.middle)]
    middle = (max(box.left, to.left) + min(box.right, to.right)) // 2
    for x in sorted(range(max(box.left, to.left) + APART, min(box.right, to.right) - APART), key=lambda it: abs(it - middle)):
        if is_free(others, x, x, box.bottom, to.top) and not any(abs(x - it) < APART and box.bottom < end and begin < to.top for it, begin, end in taken):
            taken.append((x, box.bottom, to.top))
            return [(x, box.bottom), (x, to.top)]
    middle, end = (box.left + box.right) // 2, to.left if box.right <= to.left + 2 * APART else to.right
    for x in sorted(range(box.left + APART, box.right - APART), key=lambda it: abs(it - middle)):
        along = min(x, end) + CLEAR, max(x, end) - CLEAR
        if is_free(others, x, x, box.bottom, to.middle) and is_free(others, *along, to.middle, to.middle + 1):
            return [(x, box.bottom), (x, to.middle), (end, to.middle)]
    return common.fail(__name__, f"there is no way from {' '.join(box.crates)} to {' '.join(to.crates)}: move a box of BOXES")


def picture():
    used = read()
    boxes = placed(used)
    height = max(it.bottom for it in boxes) + MARGIN
    lines = [
        f'<svg xmlns="http://www.w3.org/2000/svg" viewBox="0 0 {WIDTH} {height}" width="{WIDTH}" height="{height}" role="img">',
        "<!-- made by ./x picture from crates.txt -->",
        "<title>The crates of Kiblawen, and which use which</title>",
        f"<style>{STYLE}</style>",
        '<defs><marker id="head" viewBox="0 0 8 8" refX="8" refY="4" markerWidth="8" markerHeight="8" orient="auto">'
        '<path class="head" d="M0 0 L8 4 L0 8 z"/></marker></defs>',
    ]
    taken = []
    for box, to in arrows(boxes, used):
        corners = " L".join(f"{x} {y}" for x, y in way(box, to, boxes, taken))
        lines.append(f'<path class="arrow" d="M{corners}" marker-end="url(#head)"/>')
    for box in boxes:
        lines += box.drawn()
    return "\n".join([*lines, "</svg>", ""])


def main(words):
    if words not in ([], ["--write"], ["--check"]):
        print(__doc__, file=sys.stderr)
        return 2
    made = picture()
    if not words:
        print(made, end="")
    elif words == ["--write"]:
        with open(PICTURE, "w", encoding="utf-8") as file:
            file.write(made)
    else:
        found = open(PICTURE, encoding="utf-8").read() if os.path.isfile(PICTURE) else None
        if found != made:
            print("./x picture: docs/crates.svg is not what crates.txt says; ./x picture --write makes it anew", file=sys.stderr)
            return 1
    return 0
