"""Makes the parts of the pages that are made from the sources, and checks the pages.

    ./x docs --write     makes the commands in README.md and in the man page, and the picture of the crates
    ./x docs --check     fails if a page has others, as the gate does, and in these cases:

- a link of a page leads to no file of the repository, or to no heading there;
- docs/omissions.md has no heading, row of a table or item of a list for a reason against a function;
- docs/messages.md has no section for a group of faults, or the section lacks a fault;
- neither of the two has a row or an item for a stop of a walk;
- the pages together have more words than MOST_WORDS, or README.md has more than MOST_IN_README, by `wc -w`;
- `./x closure`, `./x definitions` or `./x clauses` misses something in the sources.
"""

import collections
import glob
import os
import re

from kiblawen import clauses, closure, commands, common, definitions, picture

FOLDER = common.at_top("docs")
# What makes parts of pages, and what is printed when it is asked for. Each has a `main` that takes `--check`, and the first ones `--write`.
MAKERS, PRINTERS = [commands, picture], [closure, definitions, clauses]
# The pages whose words count, as patterns.
WORDS = ["README.md", "docs/*.md", "man/*", "include/*", "CHANGELOG.md", "CONTRIBUTING.md", "SECURITY.md"]
MOST_WORDS, MOST_IN_README = 27_000, 900


def sections(page):
    """The text below each heading of a page down to the next heading of its level or a higher one, by heading."""
    with open(os.path.join(FOLDER, page), encoding="utf-8") as file:
        parts = re.split(r"^(#+) (.*)$", file.read(), flags=re.MULTILINE)
    found = {}
    for at in range(1, len(parts), 3):
        texts = [parts[at + 2]]
        for after in range(at + 3, len(parts), 3):
            if len(parts[after]) <= len(parts[at]):
                break
            texts += parts[after + 1 : after + 3]
        found[parts[at + 1]] = "\n".join(texts)
    return found


def rows(texts):
    """The first cell of each row of the tables, and the name or line with which an item of a list begins."""
    return [cell or name for text in texts.values() for cell, name in re.findall(r"(?m)^(?:\| ([^|]*) \||- (`[^`\n]+`))", text)]


def has_name(name, texts):
    return any(re.search(rf"\b{name}\b", it) for it in texts)


def unexplained():
    """The names that a line can have and that the pages do not explain."""
    omissions, messages = sections("omissions.md"), sections("messages.md")
    names = source("sf_text", "names.rt").split("fn name_of_")[1:]
    of_reasons, of_groups = (re.findall(r'=> "(\w+)"', function) for function in names)
    of_stops = re.findall(r'Stop::\w+.*"(\w+)', source("sf_text", "frames.rt"))
    yield from (f"reason {it}" for it in of_reasons if not has_name(it, [*omissions, *rows(omissions)]))
    yield from (f"stop {it}" for it in of_stops if not has_name(it, rows(omissions) + rows(messages)))
    texts = {it: "\n".join(text for heading, text in messages.items() if re.search(rf"(?i)\bgroup `?{it}\b", heading)) for it in of_groups}
    faults = named_faults()
    yield from (f"group {it}" for it in of_groups if not texts[it])
    yield from (f"group {it} without a fault" for it in of_groups if it not in {group for group, _ in faults})
    yield from (f"fault {group} {name}" for group, name in faults if not has_name(name, [texts[group]]))


def source(crate, name):
    with open(common.at_top("crates", crate, "src", name), encoding="utf-8") as file:
        return file.read()


def named_faults():
    """The group and the name of each fault that a line can print, from the definitions. The line of a limit has no name of a fault."""
    found = set()
    for path in sorted(glob.glob(common.at_top("crates", "*", "specs", "FaultShown.antt"))):
        with open(path, encoding="utf-8") as file:
            found.update(re.findall(r'group\.(\w+) \d+ \(codes "(\w+)"\)', file.read()))
    return sorted((group.lower(), name) for group, name in found if not name.startswith("TooMany"))


def anchors(path):
    """The names by which links reach the headings of a page."""
    found, times = set(), collections.Counter()
    with open(path, encoding="utf-8") as file:
        text = re.sub(r"(?ms)^```.*?^```", "", file.read())
    for heading in re.findall(r"(?m)^#+ (.*)$", text):
        heading = re.sub(r"\[([^\]]*)\]\([^)]*\)", r"\1", heading)
        name = re.sub(r"[^\w\- ]", "", heading.lower()).replace(" ", "-")
        found.add(f"{name}-{times[name]}" if times[name] else name)
        times[name] += 1
    return found


def lost_links():
    """The links of the pages, in docs/ and at the top, that lead to no file of the repository, or to no heading of it."""
    known = {}
    for folder in (common.TOP, FOLDER):
        for page in sorted(name for name in os.listdir(folder) if name.endswith(".md")):
            with open(os.path.join(folder, page), encoding="utf-8") as file:
                text = re.sub(r"(?ms)^```.*?^```|`[^`\n]*`", "", file.read())
            for link in re.findall(r"\]\(([^)\s]+)\)", text):
                name, _, anchor = link.partition("#")
                if ":" in name:
                    continue
                path = os.path.normpath(os.path.join(folder, name)) if name else os.path.join(folder, page)
                if path.endswith(".md") and os.path.isfile(path):
                    known.setdefault(path, anchors(path))
                if not os.path.exists(path) or anchor and anchor not in known.get(path, []):
                    yield f"{os.path.relpath(os.path.join(folder, page), common.TOP)}: {link}"


def words_of(path):
    with open(path, encoding="utf-8") as file:
        return len(file.read().split())


def faults():
    """What is wrong with the text of the pages."""
    yield from (f"{it} leads nowhere" for it in lost_links())
    yield from (f"{it}: docs/omissions.md or docs/messages.md has to explain it" for it in unexplained())
    words = sum(words_of(path) for pattern in WORDS for path in glob.glob(common.at_top(pattern)))
    if words > MOST_WORDS:
        yield f"the pages have {words:,} words, more than {MOST_WORDS:,}"
    words = words_of(common.at_top("README.md"))
    if words > MOST_IN_README:
        yield f"README.md has {words:,} words, more than {MOST_IN_README:,}"


def main(words):
    parser = common.parser(__name__, __doc__)
    what = parser.add_mutually_exclusive_group(required=True)
    what.add_argument("--write", action="store_true")
    what.add_argument("--check", action="store_true")
    if parser.parse_args(words).write:
        return max(it.main(["--write"]) for it in MAKERS)
    found = list(faults())
    for it in found:
        print(f"./x docs: {it}")
    return max(int(bool(found)), *(it.main(["--check"]) for it in MAKERS + PRINTERS))
