"""Runs linters over the scripts of the repository, if this machine has them, and looks for words on the pages that plain English doesn't need.

    ./x lint               what the gate runs
    ./x lint CRATE ..      also searches the comments of these crates

Shell scripts are read by shellcheck, Python by pyflakes or else by pylint, for errors only. A missing linter is named. The pages, the man pages
and the comments of the headers are searched for the patterns of INSTEAD, outside of code: each place is shown with what to write. The status is 1
if a linter or this search reports something.
"""

import glob
import os
import re
import shutil

from kiblawen import common

LINTERS = {
    "sh": (["shellcheck"],),
    "python3": (["pyflakes3"], ["pyflakes"], ["pylint", "--errors-only", "--init-hook", f"import sys; sys.path.insert(0, {common.TOOLS!r})"]),
}
PAGES = ["*.md", "docs/*.md", "man/*", "include/*.h"]
# What stands for something that has a name, or is a word by word translation, and what to write.
INSTEAD = {
    r"(that|those) of": "the noun",
    r"ones? that": "the noun",
    r"(is|are) told": "is known; is printed",
    r"the most [^.;:]{1,60}? that": "the maximum",
    r"behind": "after",
    r"stands? (at|in|before)": "is at, is in, is before",
    r"one after the other": "consecutive",
    r"so many": "`n`, `count`",
    r"(is|are) had": "is open; is allocated",
    r"want of memory": "out of memory",
    r"takes? (no )?memory": "allocates; allocates nothing",
    r"thrown away": "dropped",
    r"left out": "omitted",
    r"goes through|gone through": "goes over; is scanned",
    r"by halves": "binary search",
    r"puts? (\w+ ){1,4}in order": "sorts",
    r"last parts?": "base name",
    r"pass(ed|es) over": "skipped",
    r"goes on": "continues",
    r"calls? itself": "is recursive",
    r"of the caller's": "caller-supplied",
    r"by \w+ own means": "itself",
    r"no \w+ but": "only",
    r"without a question": "without asking",
}
# What is no text of a page: code, where a link leads, what is made from the sources; of a header, what is no comment.
CODE = {
    ".md": r"(?ms)^```.*?^```|^<!-- made by.*?^<!-- end -->|`[^`\n]*`|\]\([^)\s]*\)",
    ".h": r"(?s)(?:^|\*/).*?(?:/\*|$)",
    ".1": r'(?ms)^\.\\" made by.*?^\.\\" end of',
    ".rt": r"(?m)^(?!\s*//).*$|`[^`\n]*`",
    ".antt": r"(?m)^(?!\s*--).*$|`[^`\n]*`",
}


def language(path):
    """The language of a script, by its ending or its first line; none for any other file."""
    if path.endswith(".py"):
        return "python3"
    with open(path, "rb") as file:
        first = file.readline(64)
    if first.startswith(b"#!"):
        return first.decode(errors="replace").split()[-1].rpartition("/")[2]
    return None


def scripts():
    """The scripts by language. Crates have none, and what is made is skipped."""
    found = {name: [] for name in LINTERS}
    for folder, folders, names in os.walk(common.TOP):
        folders[:] = sorted(it for it in folders if it not in (".git", "crates", "out", "__pycache__"))
        for path in (os.path.join(folder, name) for name in sorted(names)):
            if os.path.isfile(path) and language(path) in found:
                found[language(path)].append(os.path.relpath(path, common.TOP))
    return found


def prose(path):
    """The text of a page, with blanks in place of its code."""
    with open(path, encoding="utf-8") as file:
        text = file.read()
    code = CODE.get(os.path.splitext(path)[1])
    return re.sub(code, lambda it: re.sub(r"[^\n]", " ", it[0]), text) if code else text


def foreign(pages):
    """The places of pages where something can be said in plainer words."""
    for page in pages:
        text = prose(common.at_top(page))
        for pattern, instead in INSTEAD.items():
            # A line may end within a pattern, and a comment's next line begins with its sign.
            for found in re.finditer(rf"\b({pattern})\b".replace(" ", r"[\s*/-]+"), text, re.IGNORECASE):
                yield f"{page}:{text.count(chr(10), 0, found.start()) + 1}: `{' '.join(found[0].split())}`: write {instead}"


def main(words):
    parser = common.parser(__name__, __doc__)
    parser.add_argument("crates", nargs="*", metavar="CRATE")
    given = parser.parse_args(words)
    failed = 0
    for name, paths in scripts().items():
        linter = next((it for it in LINTERS[name] if shutil.which(it[0])), None)
        if linter is None:
            print(f"lint: {len(paths)} scripts in {name} skipped: there is no {' or '.join(it[0] for it in LINTERS[name])}", flush=True)
            continue
        status = common.status_of([*linter, *paths], cwd=common.TOP)
        failed |= status != 0
        print(f"lint: {len(paths)} scripts in {name} by {linter[0]}: {'FAILED' if status else 'nothing to report'}", flush=True)
    patterns = PAGES + [f"crates/{crate}/{part}" for crate in given.crates for part in ("src/*.rt", "specs/*.antt")]
    pages = sorted(os.path.relpath(it, common.TOP) for pattern in patterns for it in glob.glob(common.at_top(pattern)))
    found = list(foreign(pages))
    for it in found:
        print(it)
    print(f"lint: the English of {len(pages)} files: {'FAILED' if found else 'nothing to report'}")
    return int(failed or bool(found))
