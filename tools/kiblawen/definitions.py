"""Prints what definitions mean: their texts with their comments, or a list of those that the clauses of a run rest on.

    ./x definitions            prints the list, by crate and file
    ./x definitions NAME ..    prints these definitions, each with its file, its comment and what it names; or a crate's part of the list
    ./x definitions --check    fails if a file, or a definition that the list shows with a text, has no comment, as the gate does

Definitions are the items of crates/NAME/specs/*.antt; the types that the sources declare are not among them. `./x install` writes the list
as docs/definitions.md. A comment before a definition says what it is. It also covers the definitions after it that have no comment of their own;
the first lines of a file cover those before its first comment. A comment `-- ---- text` is a heading.
"""

import functools
import os
import re
import sys

from kiblawen import closure, common
from kiblawen import crates as crate_list
from kiblawen.common import TOP

HEAD = """# Definitions

The definitions that the clauses of a run rest on, by crate and file; made by `./x definitions` from the comments in `crates/*/specs`.

- The text below the name of a file is its first sentence. A file that restates a standard names the section.
- A name with a text is one that contracts of public functions name. The text is the first sentence of its comment.
- *Below* are the names that these rest on. *Inner* names are named by contracts, but no run rests on them.
- `./x definitions NAME` prints a definition with its whole comment.

| the comments say | the standard |
|---|---|
| GNU SFrame specification | [the SFrame format, Version 2](https://sourceware.org/binutils/docs/sframe-spec.html), with its errata 1 |
| DWARF 5, DWARF 3 | [the DWARF debugging format](https://dwarfstd.org/dwarf5std.html) |
| LSB Core, LSB | [Linux Standard Base Core, the chapter on exception frames](https://refspecs.linuxfoundation.org/LSB_5.0.0/LSB-Core-generic/LSB-Core-generic/ehframechpt.html) |
| ELF64 gABI | [the generic ABI of System V](https://gabi.xinuos.com/) |
| System V AMD64 psABI | [its supplement for AMD64](https://gitlab.com/x86-psABIs/x86-64-ABI) |
| DWARF, or ELF, for the Arm 64-bit Architecture | [the Arm ABI](https://github.com/ARM-software/abi-aa) |
| Linux core files | [core(5)](https://man7.org/linux/man-pages/man5/core.5.html); no standard describes them |
| POSIX.1, ISO C | the standards of these names |

"""


def lines_of(path):
    with open(path, encoding="utf-8") as text:
        return text.read().splitlines()


def crates():
    """The crates, from below upward."""
    return [it.name for it in crate_list.listed()]


def unlinked(text):
    """A text whose links to items of the sources are their names."""
    return re.sub(r"\[(`[^`]+`)\](?:\([\w:]+\))?", r"\1", text)


def first_sentence(text):
    """The first sentence of a text, in one line. A full stop within a name or before a small letter ends none."""
    paragraph = " ".join(text.split("\n\n")[0].split())
    return re.split(r"(?<=\.)\s+(?=[^a-z])", paragraph)[0]


def plain(comment):
    """A comment for a list: signs that Markdown would read as its own, outside of names, are escaped."""
    parts = " ".join(comment).split("`")
    parts[::2] = [re.sub(r"([*<\[\]])", r"\\\1", part) for part in parts[::2]]
    return "`".join(parts)


def files(crate):
    """The files of a crate's definitions: those of Lib.antt, in its order."""
    path = f"{TOP}/crates/{crate}/specs/Lib.antt"
    if not os.path.isfile(path):
        return []
    return [line.split()[-1] for line in lines_of(path) if line.startswith(("pub mod ", "mod "))]


class File:
    """The comments of a file: its head, and its definitions in groups, each with its comment; and the text of each definition."""

    def __init__(self, crate, name):
        self.module = crate, name
        lines = lines_of(f"{TOP}/crates/{crate}/specs/{name}.antt")
        heads = next((i for i, line in enumerate(lines) if not line.startswith("--")), len(lines))
        self.head = [line[2:].strip() for line in lines[:heads]]
        self.groups, self.texts = [], {}
        comment, text = [], None
        for line in lines[heads:]:
            if line.startswith(("--", "use ", "pub use ", "infix")):
                text = None
            if line.startswith("-- ----"):
                comment = []
                self.groups.append((None, [line[len("-- ----") :].strip()]))
            elif line.startswith("--"):
                comment.append(line[2:].strip())
            elif line.startswith(closure.ITEM):
                defined = closure.HEAD.match(line)[1]
                self.add(defined, comment)
                comment, text = [], self.texts.setdefault(defined, [])
            elif line and not line.startswith("infix"):
                comment = []
            if text is not None:
                text.append(line)

    def add(self, name, comment):
        if comment or not self.groups or self.groups[-1][0] is None:
            self.groups.append(([], comment))
        self.groups[-1][0].append(name)

    def names(self, wanted):
        """The names of the file that are among these definitions."""
        return [it for names, _ in self.groups for it in names or () if (*self.module, it) in wanted]

    def shown(self, trusted, cited):
        yield f"### {self.path()}"
        yield ""
        yield plain([first_sentence(" ".join(self.head))])
        yield ""
        for names, comment in self.groups:
            named = [it for it in names or () if (*self.module, it) in trusted & cited]
            if named:
                yield f"- {listed(named)}" + (f": {said(comment)}" if comment else "")
        below, inner = self.names(trusted - cited), self.names(cited - trusted)
        if below:
            yield f"- below: {listed(below)}"
        if inner:
            yield f"- inner: {listed(inner)}"
        yield ""

    def path(self):
        crate, name = self.module
        return f"crates/{crate}/specs/{name}.antt"

    def entry(self, name, found):
        """A definition as its file has it, with the files of what it names."""
        yield f"{self.path()}: {first_sentence(' '.join(self.head))}"
        yield ""
        at = next(at for at, (names, _) in enumerate(self.groups) if name in (names or ()))
        # A heading is before the definitions that have no comment.
        yield from (f"-- {line}" for line in self.groups[at][1] or at and self.groups[at - 1][1] or ())
        yield from "\n".join(self.texts[name]).rstrip("\n").splitlines()
        yield ""
        for crate, file, other in sorted(found.uses[(*self.module, name)]):
            yield f"  names {other} of crates/{crate}/specs/{file}.antt"

    def uncommented(self, shown):
        """The file, if it has no head; and names that the list has to show with a text, and that are two or more after the comment before them."""
        if not self.head:
            yield f"{self.path()} does not begin with a comment"
        for names, comment in self.groups:
            for name in (names or ())[2:]:
                if comment and (*self.module, name) in shown:
                    yield f"{self.path()}: {name} needs a comment"


def said(comment):
    """The first sentence of a comment, without its full stop."""
    return plain([first_sentence(" ".join(comment)).rstrip(".")])


def listed(names):
    return ", ".join(f"`{name}`" for name in names)


class List:
    """The list of the definitions that a run rests on, and of the inner ones."""

    def __init__(self):
        self.found = closure.Definitions()
        self.trusted = self.found.below(closure.rows(self.found)["a run of any command"])
        self.cited = closure.cited(self.found)

    def counts(self):
        counts = f"{len(self.trusted):,} of {len(self.found.lines):,} definitions are those that the clauses of a run rest on"
        return f"{counts}, {len(self.cited - self.trusted):,} are inner ones, and the others are not listed."

    def section(self, crate):
        read = [File(crate, name) for name in files(crate)]
        outer = [it for it in read if it.names(self.trusted & self.cited)]
        others = [it for it in read if it not in outer and it.names(self.trusted | self.cited)]
        if outer or others:
            yield from ["", f"## `{crate}`", ""]
        yield from (line for it in outer for line in it.shown(self.trusted, self.cited))
        for kind, wanted in (("below", self.trusted), ("inner", self.cited - self.trusted)):
            yield from (f"- {kind}, {it.path()}: {listed(it.names(wanted))}" for it in others if it.names(wanted))


@functools.lru_cache(maxsize=None)
def page():
    """The whole list, as a page."""
    made = List()
    lines = [made.counts(), *(line for crate in crates() for line in made.section(crate))]
    return HEAD + "\n".join(lines).rstrip("\n") + "\n"


def entries(names):
    """The definitions of these names, or a crate's part of the list."""
    found = closure.Definitions()
    for wanted in names:
        if wanted in crates():
            yield from List().section(wanted)
            continue
        of_name = sorted(it for it in found.lines if it[2] == wanted)
        if not of_name:
            common.fail(__name__, f"no definition and no crate has the name {wanted}")
        for crate, file, name in of_name:
            yield from File(crate, file).entry(name, found)


def main(words):
    parser = common.parser(__name__, __doc__)
    parser.add_argument("--check", action="store_true")
    parser.add_argument("names", nargs="*", metavar="NAME")
    given = parser.parse_args(words)
    if given.check:
        made = List()
        read = [File(crate, name) for crate in crates() for name in files(crate)]
        wrong = [it for file in read for it in file.uncommented(made.trusted & made.cited)]
        for it in wrong:
            print(f"./x definitions: {it}", file=sys.stderr)
        return int(bool(wrong))
    common.say("\n".join(entries(given.names)) if given.names else page().rstrip("\n"))
    return 0
