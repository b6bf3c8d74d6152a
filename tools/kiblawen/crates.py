"""Writes for each crate the libraries that it uses, as its sources name them, and the files of its definitions and lemmas.

    ./x crates --write     writes crates.txt, and specs/Lib.antt and proofs/Lib.antt of each crate
    ./x crates --check     fails where one of them names others, as the gate does

crates.txt is written by hand up to the colons: its groups, the crates of each from below upward, and which of them is a static library. A
crate uses a library where its src/, specs/ or proofs/ has `NAME::..` or `Rattle.NAME..`, outside of comments. The libraries are the crates
of the file, and those of the toolchain that some line of it names: the first use of another one is added by hand.

A list Lib.antt has a line for each file beside it. A new file is added at its end; the order of its lines, and which of them say `pub`, are
kept.
"""

import os
import re

from kiblawen import common

PATH = common.at_top("crates.txt")
PARTS = ("src", "specs", "proofs")
COMMENT = {".rt": re.compile(r"//.*"), ".antt": re.compile(r"--.*")}
# A line of a list of files.
FILE = re.compile(r"(?:pub )?mod (\w+)\n?")
# The root of a path: in code, and in clauses and proofs.
ROOT = re.compile(r"(?<![\w:])(\w+)::|\bRattle\.(\w+)")


class Crate:
    """A line of crates.txt: the crate's name, whether it is a static library, and the libraries that it names."""

    def __init__(self, line):
        head, _, uses = line.partition(":")
        self.name, *kind = head.split()
        self.is_static, self.uses = bool(kind), uses.split()

    def line(self, uses):
        return " ".join([self.name + " staticlib" * self.is_static + ":", *uses]) + "\n"


def lines():
    with open(PATH, encoding="utf-8") as file:
        return file.readlines()


def is_crate(line):
    return bool(line.partition("#")[0].strip())


def listed():
    """The crates of crates.txt, in its order."""
    return [Crate(line.partition("#")[0]) for line in lines() if is_crate(line)]


def is_program(name):
    return os.path.isfile(common.at_top("crates", name, "src", "main.rt"))


def roots(name):
    """The roots of all paths in a crate's sources."""
    found = set()
    for part in PARTS:
        for folder, _, names in os.walk(common.at_top("crates", name, part)):
            for path in (os.path.join(folder, it) for it in names):
                comment = COMMENT.get(os.path.splitext(path)[1])
                if comment:
                    with open(path, encoding="utf-8") as file:
                        text = comment.sub("", file.read())
                    found.update(root or of_clause for root, of_clause in ROOT.findall(text))
    return found


def made():
    """The lines of crates.txt, with the libraries that each crate uses: crates in the order of the file, then those of the toolchain."""
    crates = listed()
    names = [it.name for it in crates]
    libraries = names + sorted({use for it in crates for use in it.uses} - set(names))
    for line in lines():
        if is_crate(line):
            crate = Crate(line)
            found = roots(crate.name)
            line = crate.line(it for it in libraries if it in found and it != crate.name)
        yield line


def unlisted():
    """The folders of crates/ that have sources and no line of crates.txt."""
    names = {it.name for it in listed()}
    return [it for it in sorted(os.listdir(common.at_top("crates"))) if it not in names and os.path.isdir(common.at_top("crates", it, "src"))]


def file_lists():
    """The path of each list of files, with its lines as they are and as they have to be."""
    for folder in (common.at_top("crates", it.name, part) for it in listed() for part in ("specs", "proofs")):
        path = os.path.join(folder, "Lib.antt")
        if os.path.isfile(path):
            with open(path, encoding="utf-8") as file:
                before = file.readlines()
            files = {it[: -len(".antt")] for it in os.listdir(folder) if it.endswith(".antt")} - {"Lib"}
            named = [FILE.fullmatch(it) for it in before]
            after = [line for line, found in zip(before, named) if not found or found[1] in files]
            after += [f"pub mod {it}\n" for it in sorted(files - {found[1] for found in named if found})]
            yield path, before, after


def main(words):
    parser = common.parser(__name__, __doc__)
    what = parser.add_mutually_exclusive_group(required=True)
    what.add_argument("--write", action="store_true")
    what.add_argument("--check", action="store_true")
    wanted = parser.parse_args(words)
    if unlisted():
        common.fail(__name__, f"crates.txt has no line of {', '.join(unlisted())}: add it to its group")
    status = 0
    for path, before, after in [(PATH, lines(), list(made())), *file_lists()]:
        if before != after and wanted.write:
            with open(path, "w", encoding="utf-8") as file:
                file.writelines(after)
        elif before != after:
            added, gone = (sorted(set(one) - set(other)) for one, other in ((after, before), (before, after)))
            print(f"{os.path.relpath(path, common.TOP)} is not what the sources say: ./x crates --write", *added, "instead of", *gone, sep="\n  ")
            status = 1
    return status
