"""Where the program is: the one that was built, or the one that `--tool` names."""

import os
import re
import shutil
import subprocess
import sys

from kiblawen import common, elf

BUILT = common.at_top("crates", "sf_tool", "out", "sf_tool")
LIBRARY = common.at_top("crates", "sf_c", "out", "libsf_c.a")
# The library that makes tables: what `rt` builds, and the archive that `./x archive` makes of it.
BUILT_LINK_LIBRARY = common.at_top("crates", "sf_link_c", "out", "libsf_link_c.a")
LINK_LIBRARY = common.at_top("crates", "sf_link_c", "out", "libkiblawen_link.a")


def add_option(parser):
    parser.add_argument("--tool", metavar="PROGRAM", help="in place of the program that was built, such as /usr/bin/sf_tool")


def find(module, tool=None, has_to_be_new=False):
    """The program for a command: the one of `--tool`, or the one that was built, which may have to be newer than the sources."""
    if tool:
        path = os.path.abspath(tool)
        if not os.path.isfile(path) or not os.access(path, os.X_OK):
            common.fail(module, f"{path} is no program")
        return path
    if not os.path.isfile(BUILT) or not os.access(BUILT, os.X_OK):
        common.fail(module, f"there is no {BUILT}: `sh demo/run` builds it, and so does `rt ci`")
    newer = newer_source() if has_to_be_new else None
    if newer:
        common.fail(module, f"{newer} is newer than {BUILT}: build it again")
    return BUILT


def beside(name, tool):
    """The program for a script of this name: the one of `--tool`, or the one beside the script, or the one that was built, or the one on PATH."""
    near = [os.path.join(os.path.dirname(it), "sf_tool") for it in (os.path.abspath(sys.argv[0]), os.path.realpath(sys.argv[0]))]
    for path in [tool] if tool else [*near, BUILT, shutil.which("sf_tool")]:
        if path and os.path.isfile(path) and os.access(path, os.X_OK):
            return os.path.abspath(path)
    return sys.exit(f"{name}: {tool} is no program" if tool else f"{name}: there is no sf_tool beside it or on PATH: use --tool")


def newer_source(path=BUILT):
    """A source that is newer than the program or the library that was built."""
    built = os.path.getmtime(path)
    for folder, folders, files in os.walk(common.at_top("crates")):
        folders[:] = [name for name in folders if name != "out"]
        for name in files:
            if name.endswith(".rt") and os.path.getmtime(os.path.join(folder, name)) > built:
                return os.path.join(folder, name)
    return None


class Omitted:
    """A function that a report names: its size, the reason, and the offset where it holds."""

    def __init__(self, size, reason, at):
        self.size, self.reason, self.at = size, reason, at


OMIT = re.compile(r"omit (0x\w+) size (\d+) input \d+ section \d+ fde 0x\w+ (\w+)(?: at (\d+))?")


def report(text):
    """The functions that were omitted, by start, and how many were kept."""
    omitted = {}
    for line in OMIT.finditer(text):
        omitted[int(line[1], 16)] = Omitted(int(line[2]), line[3], int(line[4]) if line[4] else None)
    return omitted, int(re.search(r"kept (\d+) omitted", text)[1])


def linked(tool, path, out, command="link"):
    """Links a file at its own addresses. Returns the section's address and the report, or none and the line of its refusal."""
    at = elf.page_after(path)
    words = [tool, command, f"{out}@{at:#x}", f"{path}@{elf.BASE:#x}"]
    ran = subprocess.run(words, stdin=subprocess.DEVNULL, capture_output=True, timeout=common.SECONDS, check=False)
    if ran.returncode != 0:
        return None, f"status {ran.returncode}: {ran.stderr.decode(errors='replace').strip()}"
    return at, ran.stdout.decode()


def functions(tool, section, at):
    """What `dump` says of a section: for each function its size and rows (offset, content), by start."""
    found, rows = {}, None
    for line in common.output(tool, "dump", f"{section}@{at:#x}").splitlines():
        words = line.split()
        if words[0] == "func":
            rows = []
            found[int(words[1], 16)] = (int(words[3]), rows)
        elif words[0].startswith("+"):
            rows.append((int(words[0][1:]), " ".join(words[1:])))
    return found
