"""Makes the table of commands in README.md, and two parts of the man page, from the comments of `Command`.

    ./x commands             prints the forms and what each command does
    ./x commands --write     writes README.md and man/sf_tool.1 between the marks
    ./x commands --check     fails if one of them differs

A variant of `Command` in crates/sf_run/src/command.rt has a comment such as

    /// `dump FILE@AT` prints the functions and rows of a section. What follows is for the man page alone.

The name of a command is the first word of its form. Words in capitals are what a user puts in.
"""

import re
import sys

from kiblawen import common
from kiblawen.definitions import first_sentence

SOURCE = common.at_top("crates", "sf_run", "src", "command.rt")
README, MAN = common.at_top("README.md"), common.at_top("man", "sf_tool.1")
COMMENT = re.compile(r"`([^`]+)` (.*)")
ARGUMENT = re.compile(r"\b[A-Z]+\b")


def commands():
    """The form of each command and what it does, in the order of the variants."""
    with open(SOURCE, encoding="utf-8") as file:
        _, _, body = file.read().partition("pub enum Command")
    comment = []
    for line in map(str.strip, body.partition("\n}")[0].splitlines()[1:]):
        if line.startswith("///"):
            comment.append(line[3:].strip())
        elif line:
            found = COMMENT.fullmatch(" ".join(comment))
            if not found:
                common.fail(__name__, f"{SOURCE}: no form before {line}")
            yield found.groups()
            comment = []


def table():
    rows = [f"| `{form}` | {first_sentence(text).rstrip('.')} |" for form, text in commands()]
    return "\n".join(["| command | what it does |", "|---|---|", *rows])


def roff(text, arguments):
    """A text of a comment as the man page has it: the program's words are bold, and what a user puts in is in italics."""
    text = re.sub(r"`([^`]+)`", r"\\fB\1\\fR", text)
    text = ARGUMENT.sub(lambda it: rf"\fI{it[0]}\fR" if it[0] in arguments else it[0], text)
    return re.sub(r"(?<= )\.\.", "...", text.replace(r"\fR@", r"\fB@"))


def entries():
    """Of each command its name, the other words of its form and what it does, as the man page has them."""
    found = list(commands())
    arguments = {it for form, _ in found for it in ARGUMENT.findall(form)}
    for form, text in found:
        name, _, words = form.partition(" ")
        yield name, roff(words, arguments), roff(text, arguments)


def synopsis():
    return "\n".join(rf"\fBsf_tool {name}\fR {words}" for name, words, _ in entries())


def descriptions():
    # Each sentence begins a line.
    return "\n".join(f".TP\n.B {name}\n" + re.sub(r"(?<=\.) (?=[\\A-Z])", "\n", text) for name, _, text in entries())


# A page, its marks, and what is made between them.
PARTS = [
    (README, "<!-- made by ./x commands -->\n", "<!-- end -->\n", table),
    (MAN, '.\\" made by ./x commands: forms\n', '.\\" end of forms\n', synopsis),
    (MAN, '.\\" made by ./x commands: what they do\n', '.\\" end of what they do\n', descriptions),
]


def main(words):
    parser = common.parser(__name__, __doc__)
    what = parser.add_mutually_exclusive_group()
    what.add_argument("--write", action="store_true")
    what.add_argument("--check", action="store_true")
    wanted, status = parser.parse_args(words), 0
    if not wanted.write and not wanted.check:
        print("\n".join(f"{form}: {text}" for form, text in commands()))
        return 0
    for page, mark, end, made in PARTS:
        with open(page, encoding="utf-8") as file:
            text = file.read()
        before, found, rest = text.partition(mark)
        if not found:
            common.fail(__name__, f"{page} has no line {mark.strip()}")
        anew = before + mark + made() + "\n" + end + rest.partition(end)[2]
        if wanted.write:
            with open(page, "w", encoding="utf-8") as file:
                file.write(anew)
        elif anew != text:
            print(f"./x commands: {page} is not what the sources say; ./x commands --write makes it anew", file=sys.stderr)
            status = 1
    return status
