"""Prints what the public functions promise: the clauses of each, by crate and file.

    ./x clauses             prints the list
    ./x clauses CRATE ..    prints these crates' part of it
    ./x clauses --check     fails if a public function has no comment, or neither a clause nor a reason in the table WITHOUT, as the gate does

A function is public if the crate exports it or its type. What it does is the first sentence of its comment. A clause is shown by its name, or by
its text if it has no name and is short. A function of a trait may have the trait's clauses alone. `./x install` writes the list as docs/clauses.md.
"""

import collections
import functools
import glob
import os
import re
import sys

from kiblawen import common, definitions
from kiblawen.common import TOP
from kiblawen.definitions import lines_of

HEAD = """# Clauses

The public functions of each crate by file, each with its clauses and what it does; made by `./x clauses` from `crates/*/src`.

- A clause is a fact about every call whose conditions (`requires`) hold. It is shown by its name, or by its text if it has no name and is short.
- In a clause, `result` is what the call returns. `x.now` is a borrowed value; `x.old` and `x.new` are a value before and after a call that changes it. `IfOk result` says nothing if the call returns a fault, such as out of memory.
- That each function is safe and ends is proved without a clause.

"""
# The public functions that have no clause, each with the reason.
WITHOUT = {
    ("sf_parts", "bytes_of"): "which part has a number is a plan; what is read of it is checked",
    ("sf_write", "PackedFunction::into_rows"): "only the memory is used again",
    ("sf_write", "StoredRows::new"): "clauses of the calls that store speak of what was stored since",
    ("core_parts", "PartMemory::first_unread"): "what to read next is a plan; the walk is made again with it",
    ("sf_tool", "hold"): "the process has no contents that are known",
    ("sf_tool", "hold_streams"): "as for `hold`",
    ("sf_tool", "words"): "the words of the process are not known",
    ("sf_tool", "main"): "`run_on_host`, which it calls, has the clauses of a run",
}

# The most characters of the text of a clause.
TEXT = 90
FUNCTION = re.compile(r"( *)(pub )?(?:const )?(?:unsafe )?(extern \"C\" )?fn (\w+)")
BLOCK = re.compile(r"(?:pub )?(?:unsafe )?(impl|trait)\b(?:<[^{]*?>)? ?(.*?) *\{?$")
CLAUSE = re.compile(r"ensures(?: (\w+))? \{ ?(.*)$")
Function = collections.namedtuple("Function", "path name does trait clauses")


def exported(crate):
    """The names that a crate exports. A program exports none: there each function that has a clause is shown."""
    root = f"{TOP}/crates/{crate}/src/lib.rt"
    if not os.path.isfile(root):
        return None
    uses = " ".join(re.findall(r"(?ms)^pub use (.*?);", "\n".join(lines_of(root))))
    return set(re.findall(r"\w+", re.sub(r"\w+::", "", uses)))


def type_of(text):
    """The name of the type that a block is of, and the trait that it keeps there, if it does."""
    trait, kept, kind = text.partition(" for ")
    return re.match(r"&?(?:'\w+ )?(\w+)", kind if kept else trait)[1], re.match(r"\w+", trait)[0] if kept else None


class Source:
    """The public functions of a file, and the traits that its types keep."""

    def __init__(self, path, names):
        self.path, self.names = path, names
        self.functions, self.kept = [], []
        self.kind = self.trait = self.gives = None
        lines = lines_of(path)
        comment = []
        for at, line in enumerate(lines):
            block, gives = BLOCK.match(line), re.match(r" *ghost next_gives = \{ (.*) \};", line)
            function = FUNCTION.match(line)
            if block:
                self.begin(block)
            elif line.startswith("}"):
                self.kind = self.trait = None
            if gives:
                self.gives = gives[1]
            if line.lstrip().startswith("///"):
                comment.append(line.strip()[4:])
                continue
            if function and self.is_public(function):
                self.functions.append(self.function(function, comment, lines[at:]))
            if not line.lstrip().startswith("#["):
                comment = []

    def begin(self, block):
        self.kind, self.trait = type_of(block[2])
        self.gives = None
        if block[1] == "trait":
            self.trait = self.kind
        elif self.trait and self.names is not None and self.kind in self.names:
            self.kept.append((self.kind, self.trait))

    def is_public(self, function):
        """Whether it is exported, or is a function of an exported trait or type, also one that keeps a trait."""
        indent, public, of_c, name = function.groups()
        if self.names is None:
            return not indent
        if indent:
            return self.kind in self.names and (bool(public) or self.trait is not None)
        return bool(of_c) or bool(public) and name in self.names

    def function(self, function, comment, lines):
        indent, _, _, name = function.groups()
        path = os.path.relpath(self.path, TOP)
        name = f"{self.kind}::{name}" if indent else name
        does = definitions.unlinked(definitions.first_sentence("\n".join(comment)))
        found = list(clauses(lines, indent))
        if name.endswith("::next") and self.gives:
            found.append((None, self.gives))
        if self.trait and not does:
            does = f"As `{self.trait}` says."
        return Function(path, name, does, self.trait, found)


def clauses(lines, indent):
    """The names of the clauses of the function that begins here, or the text of one without a name."""
    name, text, depth = None, None, 0
    for line in lines:
        bare = line.strip()
        begun = CLAUSE.match(bare) if text is None else None
        if begun:
            name, text = begun[1], []
        if text is not None:
            text.append(bare)
            depth += bare.count("{") - bare.count("}")
            if depth == 0:
                yield name, re.sub(r"^ensures(?: \w+)? \{ *| *\};?$", "", " ".join(text))
                text = None
                if bare.endswith(";"):
                    return
        elif bare.startswith("requires"):
            depth += bare.count("{") - bare.count("}")
        elif depth:
            depth += bare.count("{") - bare.count("}")
        elif bare.endswith((";", "{", "}")) or line.startswith(f"{indent}{{"):
            return


def shown(clause):
    name, text = clause
    return f"`{name}`" if name else f"`{text}`" if len(text) <= TEXT else "one clause without a name"


def item(function):
    named = ", ".join(shown(clause) for clause in function.clauses)
    return f"- `{function.name}` ({named}): {function.does}"


def sources(crate):
    names = exported(crate)
    return [Source(path, names) for path in sorted(glob.glob(f"{TOP}/crates/{crate}/src/*.rt"))]


def section(crate):
    read = sources(crate)
    if any(it.clauses for source in read for it in source.functions):
        yield from [f"## `{crate}`", ""]
    for source in read:
        functions = [it for it in source.functions if it.clauses]
        if functions:
            yield from [f"{functions[0].path}:", "", *map(item, functions), ""]
    kept = sorted({it for source in read for it in source.kept if it[1] in traits()})
    if kept:
        yield "Keep a trait's clauses: " + ", ".join(f"`{kind}` those of `{trait}`" for kind, trait in kept) + "."
        yield ""


@functools.lru_cache(maxsize=None)
def traits():
    """The traits that have clauses."""
    texts = ("\n".join(lines_of(path)) for path in glob.glob(f"{TOP}/crates/*/src/*.rt"))
    return {name for text in texts for name in re.findall(r"(?m)^pub trait (\w+)", text)}


@functools.lru_cache(maxsize=None)
def page():
    """The whole list, as a page."""
    lines = [line for crate in definitions.crates() for line in section(crate)]
    return HEAD + "\n".join(lines).rstrip("\n") + "\n"


def lacking():
    """The public functions without a comment, or without a clause, a trait's clauses, and a reason; and the reasons that no function needs."""
    unused = set(WITHOUT)
    for crate in definitions.crates():
        for it in (function for source in sources(crate) for function in source.functions):
            where = f"{it.name} of {crate}"
            if not it.does and it.name != "main":
                yield f"{where} has no comment"
            keeps = it.trait and not it.name.startswith(f"{it.trait}::")
            if it.clauses or keeps:
                continue
            if (crate, it.name) not in WITHOUT:
                yield f"{where} has no clause, and WITHOUT no reason"
            unused.discard((crate, it.name))
    yield from (f"WITHOUT has a reason for {name} of {crate}, which needs none" for crate, name in sorted(unused))


def main(words):
    parser = common.parser(__name__, __doc__)
    parser.add_argument("--check", action="store_true")
    parser.add_argument("crates", nargs="*", metavar="CRATE")
    given = parser.parse_args(words)
    if given.check:
        found = list(lacking())
        for it in found:
            print(f"./x clauses: {it}", file=sys.stderr)
        return int(bool(found))
    unknown = [it for it in given.crates if it not in definitions.crates()]
    if unknown:
        common.fail(__name__, f"no crate has the name {unknown[0]}")
    common.say("\n".join(line for crate in given.crates for line in section(crate)) if given.crates else page().rstrip("\n"))
    return 0
