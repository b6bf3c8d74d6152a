"""Counts the definitions that a clause rests on.

    ./x closure                prints the table: the clauses of a run, and what each command comes to
    ./x closure --list TITLE   prints the definitions below a row of the table, with their files
    ./x closure --unreached    prints the definitions that no contract of a public function reaches
    ./x closure --check        fails if a file's first line is wrong on whether the file is inside the crate, as the gate does

A definition is an item of a file crates/NAME/specs/*.antt; types that the source declares don't count. It rests on each
definition that its text names, as its file imports them. The fields of records are not definitions. A file that no contract of a public function
reaches begins with "Inside the crate".
"""

import collections
import glob
import os
import re
import sys

from kiblawen import common
from kiblawen.common import TOP

HEAD = re.compile(r"^(?:abbrev |unfoldable )?(?:pub )?(?:record |data )?([^\s:]+)(?= |$)")
ITEM = ("abbrev ", "unfoldable ", "pub record ", "pub data ", "record ", "data ")
IMPORT = re.compile(r"^(?:pub )?(?:ghost )?use Rattle\.(\w+)\.specs\.([\w.]+?)(?:\.\{(.*)\})?(?: as (\w+))?;?$")
# The crates with the commands. Link.antt says which words ask for one, `IsLink`, and what it comes to, `LinkComes`.
COMMANDS = ("section_commands", "sf_run")
# The command of a file that isn't called by it.
NAMED = {"Object": "Gen"}
WORD = re.compile(r"[^\s(){}\[\];,.]+")
# A field of a record: where it is declared, where it is given, and where it is taken of a value.
FIELD = re.compile(r"^  (?:pub )?[\w-]+ :(?= )|(?:(?<=\{ )|(?<=; )|(?<=^  )|(?<=^      ))[\w-]+ = |(?<=[\w)\]])\.[^\s(){}\[\];,.]+")


class Definitions:
    """The definitions of all specs/: how many lines each has, and which others it names."""

    def __init__(self):
        self.lines, self.uses, self.exports = {}, {}, collections.defaultdict(dict)
        texts = {}
        for path in sorted(glob.glob(f"{TOP}/crates/*/specs/*.antt")):
            crate, file = path.split("/")[-3], os.path.basename(path)[: -len(".antt")]
            if file != "Lib":
                with open(path, encoding="utf-8") as text:
                    texts[crate, file] = text.read().splitlines()
        for module, text in texts.items():
            for line in text:
                if line.startswith(ITEM):
                    name = HEAD.match(line)[1]
                    self.exports[module][name] = (*module, name)
        # A name that is handed on leads to where it is defined, in however many steps.
        for _ in range(3):
            for module, text in texts.items():
                handed_on, _ = self.names(it for it in text if it.startswith("pub use "))
                self.exports[module].update(handed_on)
        for module, text in texts.items():
            self.read(module, text)

    def names(self, lines):
        """The definitions that imports bring in by name, and the modules that they call by a name of their own."""
        known, modules = {}, {}
        for line in lines:
            found = IMPORT.match(line.strip())
            if not found:
                continue
            module = found[1], found[2]
            if found[3] is None:
                modules[found[4] or found[2]] = module
                continue
            for it in found[3].split(","):
                name, _, other = it.strip().partition(" as ")
                if name in self.exports.get(module, {}):
                    known[other or name] = self.exports[module][name]
        return known, modules

    def read(self, module, text):
        known, modules = self.names(text)
        known = {**self.exports[module], **known}
        current = None
        for line in text:
            if line.startswith(ITEM):
                current = (*module, HEAD.match(line)[1])
                self.lines[current], self.uses[current] = 0, set()
            if line.startswith(("use ", "pub use ", "infix")):
                current = None
            if current and line.strip() and not line.lstrip().startswith("--"):
                self.lines[current] += 1
                self.uses[current] |= self.named(line, known, modules) - {current}

    def named(self, text, known, modules):
        """The definitions that a text names. An operator is named where all its signs are there."""
        found = {known[it] for it in WORD.findall(FIELD.sub(" ", text)) if it in known}
        found |= {it for name, it in known.items() if "◌" in name and all(sign in text for sign in name.split("◌"))}
        for alias, name in re.findall(r"(\w+)\.([^\s(){}\[\];,.]+)", text):
            if name in self.exports.get(modules.get(alias), {}):
                found.add(self.exports[modules[alias]][name])
        return found

    def below(self, roots):
        reached, left = set(), list(roots)
        while left:
            it = left.pop()
            if it not in reached:
                reached.add(it)
                left.extend(self.uses[it])
        return reached

    def count(self, definitions):
        return sum(self.lines[it] for it in definitions)


def rows(found):
    """The rows of the table: a title, and the definitions that it begins with."""
    ends = [("sf_run", "Ends", it) for it in ("RunEnds", "RunIsComplete", "TurnedAway", "TurnedAwayUnread")]
    titles = {"a run of any command": ends, "linking, on its own": [("sf_asm", "Answers", "IsLinked")]}
    commands = {}
    for (crate, file), names in found.exports.items():
        name = NAMED.get(file, file)
        if crate in COMMANDS and f"Is{name}" in names:
            commands[f"`{name.lower()}`"] = [names[f"{name}Comes"]]
    return {**titles, **dict(sorted(commands.items()))}


def table(found):
    lines = ["| what is trusted below | definitions | lines |", "|---|---|---|"]
    for title, roots in rows(found).items():
        reached = found.below(roots)
        lines.append(f"| {title} | {len(reached):,} | {found.count(reached):,} |")
    return "\n".join(lines)


def contracts(crate):
    """The contracts of what a crate exports, file by file: the file's imports, and the text."""
    folder = f"{TOP}/crates/{crate}/src"
    root = next(it for it in (f"{folder}/lib.rt", f"{folder}/main.rt") if os.path.isfile(it))
    with open(root, encoding="utf-8") as text:
        exported = set(re.findall(r"\w+", " ".join(re.findall(r"(?ms)^pub use (.*?);", text.read()))))
    for path in sorted(glob.glob(f"{folder}/*.rt")):
        with open(path, encoding="utf-8") as text:
            lines = text.read().splitlines()
        imports = [it.strip() for it in lines if it.strip().startswith("ghost use ")]
        yield imports, "\n".join(exported_contracts(lines, exported))


def exported_contracts(lines, exported):
    block, public, open_braces = "", False, 0
    for line in lines:
        bare = line.strip()
        if line and not line.startswith((" ", "}", ")", "#", "//", "ghost")):
            block = line
        function = re.match(r" *(pub )?(?:unsafe )?(extern \"C\" )?fn (\w+)", line)
        if function:
            of_type = bool(set(re.findall(r"\w+", block)) & exported)
            is_trait = " for " in block or "trait " in block
            if line.startswith(" "):
                public = of_type and bool(function[1] or is_trait)
            else:
                public = bool(function[2]) or function[3] in exported
        member = bare.startswith("ghost ") and "=" in bare and bool(set(re.findall(r"\w+", block)) & exported)
        if open_braces > 0 or member or public and bare.startswith(("requires", "ensures")):
            yield bare
            open_braces += bare.count("{") - bare.count("}")


def cited(found):
    """The definitions that contracts of public functions name."""
    roots = set()
    for crate in sorted({it[0] for it in found.lines}):
        for imports, text in contracts(crate):
            roots |= found.named(text, *found.names(imports))
    return roots


def unreached(found):
    reached = found.below(cited(found))
    return [it for it in found.lines if it not in reached]


def mismarked(found):
    """The files that begin with "Inside the crate" though a public contract reaches them, or don't though none does."""
    reached = {it[:2] for it in found.below(cited(found))}
    for crate, file in sorted({it[:2] for it in found.lines}):
        path = f"crates/{crate}/specs/{file}.antt"
        with open(f"{TOP}/{path}", encoding="utf-8") as text:
            if text.readline().startswith("-- Inside the crate") == ((crate, file) in reached):
                yield path


def show(found, definitions):
    for crate, file, name in definitions:
        print(f"{crate}/specs/{file}.antt {name}")
    print(f"{len(definitions)} of {len(found.lines)} definitions, {found.count(definitions)} lines")


def main(words):
    found = Definitions()
    if not words:
        common.say(table(found))
    elif words[:1] == ["--list"] and len(words) == 2 and words[1] in rows(found):
        show(found, sorted(found.below(rows(found)[words[1]])))
    elif words == ["--unreached"]:
        show(found, unreached(found))
    elif words == ["--check"]:
        wrong = list(mismarked(found))
        for path in wrong:
            print(f"./x closure: the first line of {path} is wrong on whether the file is inside the crate", file=sys.stderr)
        return int(bool(wrong))
    else:
        print(__doc__, file=sys.stderr)
        return 2
    return 0
