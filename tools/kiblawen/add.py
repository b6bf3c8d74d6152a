"""Adds SFrame tables to finished programs and shared objects.

    kiblawen-add FILE|DIR ..                      adds a section .sframe to each file, and to each below these folders
    kiblawen-add --into-store STORE FILE|DIR ..   writes STORE/xx/yyyy.sframe instead, where xxyyyy is the file's build identifier
    kiblawen-add --from-store STORE FILE ..       prints the table that a store has of each file, as TABLE@AT

AT is the first page after a file's last loaded byte, and counts from the file's load address. The section is marked as loaded, so strip and
eu-strip keep it, but no segment holds it. A file is replaced only after its table was read back out of the new file and compared by
`sf_tool verify`, and if nothing else was changed that is loaded. It keeps mode, owner, extended attributes and hard links. A table that a store
has counts only if `sf_tool verify` agrees. A table of Version 3 (--version 3) is made by `sf_tool upgrade` of a table that `verify` compared.

Symbolic links below a folder aren't followed. Files that have a table, debug-only files and objects are passed over. A refused file
is unchanged: `sf_tool` can't link it, or objcopy would change more than it has to. The last lines are a summary.

The status is 0 if each file has a table afterwards, 3 if some have none (no function was kept, or they have a table of another version), 1 if
some are refused or failed, 2 if the arguments are wrong.
"""

import argparse
import collections
import concurrent.futures
import errno
import os
import shutil
import struct
import sys

from kiblawen import common, elf, program, replacing, tables

NAME = "kiblawen-add"
# The states of a file, and the words of the summary. Those in LISTED get a line for each file.
STATES = {
    "added": "added", "had": "had one", "other": "had another version", "debug": "debug-only",
    "empty": "empty", "refused": "refused", "failed": "failed",
}
LISTED = ("other", "empty", "refused", "failed")
FAILED, WITHOUT = 1, 3
# That of a command that SIGINT ended, as a shell has it.
INTERRUPTED = 130


def look(folder, name):
    """The status of a file of a folder, if it is a program or shared object."""
    file = replacing.open_in(folder, name)
    if not file:
        return None
    with file:
        return os.fstat(file.fileno()) if elf.is_finished(file) else None


def below(top, lost):
    """The programs and shared objects below a folder. Links are not followed: what they name may be outside of it."""
    for place, folders, names, folder in os.fwalk(top, onerror=lost.append):
        folders.sort()
        for name in sorted(it for it in names if not it.startswith(replacing.ROOM)):
            path = os.path.join(place, name)
            try:
                here = look(folder, name)
            except OSError as fault:
                lost.append(f"{path}: {fault.strerror}")
                continue
            if here:
                yield path, here


def named(path, word, lost):
    """The file that a word names, if it is a program or shared object."""
    why = "no program or shared object for AMD64 or AArch64" if os.path.exists(path) else os.strerror(errno.ENOENT)
    here = None
    try:
        with replacing.folder_of(path) as folder:
            here = look(folder, os.path.basename(path))
    except OSError as fault:
        why = fault.strerror
    if here:
        yield path, here
    else:
        lost.append(f"{word}: {why}")


def find_files(words):
    """The files with the names of each, and the words and folders that can't be used."""
    files, lost = {}, []
    for word in words:
        # Of a folder and a link to it, or of two links, the files have the same names.
        path = os.path.realpath(word)
        for name, here in below(path, lost) if os.path.isdir(path) else named(path, word, lost):
            files.setdefault(replacing.identity(here), {})[name] = None
    return [replacing.Found(list(names), identity) for identity, names in files.items()], lost


def tried(use, given, found):
    """Makes something of one file. Returns its state, why, and what was made."""
    try:
        return "added", "", use(given, found)
    except tables.Stop as stop:
        return stop.state, stop.why, None
    except replacing.Changed:
        return "failed", "it was changed meanwhile", None
    except (struct.error, OverflowError):
        return "refused", "malformed", None
    except Exception as fault:  # pylint: disable=broad-except
        return "failed", f"{type(fault).__name__}: {fault}", None


class Summary:
    """What is known of the files so far."""

    def __init__(self):
        self.states, self.reasons, self.lines = collections.Counter(), collections.Counter(), []
        self.kept = self.size = self.before = self.after = 0

    def note(self, path, state, why, made):
        self.states[state] += 1
        if state in LISTED:
            self.lines.append(common.shown(f"{state} {path}{': ' if why else ''}{why}"))
        if made:
            self.reasons.update(made.reasons)
            self.kept += made.kept
            self.size += made.size
            self.before += made.before
            self.after += made.after

    def show(self):
        for line in sorted(self.lines):
            common.say(line)
        files, omitted = sum(self.states.values()), sum(self.reasons.values())
        counts = ", ".join(f"{self.states[state]} {words}" for state, words in STATES.items() if self.states[state])
        common.say(f"{files} file{'' if files == 1 else 's'}{': ' if counts else ''}{counts}")
        if self.kept:
            reasons = ", ".join(f"{reason} {count}" for reason, count in self.reasons.most_common())
            common.say(f"kept {self.kept} functions, omitted {omitted}{': ' if reasons else ''}{reasons}")
            more = f"; these have {self.after - self.before} bytes more" if self.after > self.before else ""
            common.say(f"{self.size} bytes of tables, {100 * self.size / self.before:.1f} % of the files{more}")

    def status(self, lenient):
        if self.states["failed"] or self.states["refused"] and not lenient:
            return FAILED
        return WITHOUT if (self.states["empty"] or self.states["other"]) and not lenient else 0


def add_all(given, files, summary):
    """Adds the tables of all files, several in parallel, with progress on a terminal."""
    seen, use = sys.stderr.isatty(), tables.into_store if given.into_store else tables.into_file
    with concurrent.futures.ThreadPoolExecutor(given.jobs) as workers:
        running = {workers.submit(tried, use, given, found): found.names[0] for found in files}
        try:
            for count, done in enumerate(concurrent.futures.as_completed(running), 1):
                summary.note(running[done], *done.result())
                if seen:
                    sys.stderr.write(f"\r{count} of {len(files)} {common.shown(os.path.basename(running[done]))[:50]}\33[K")
        finally:
            for it in running:
                it.cancel()
            if seen:
                sys.stderr.write("\r\33[K")


def from_store(given, files, lost):
    """Prints where a store has the table of each file."""
    for found in files:
        _, why, table = tried(tables.from_store, given, found)
        if table:
            common.say(table)
        else:
            lost.append(f"{found.names[0]}: {why}")
    for line in lost:
        print(f"{NAME}: {common.shown(str(line))}", file=sys.stderr)
    return FAILED if lost else 0


def jobs(word):
    count = int(word)
    if count < 1:
        raise argparse.ArgumentTypeError("a number of processes is at least 1")
    return count


def main(words):
    parser = common.parser(__name__, __doc__)
    parser.prog = NAME
    stores = parser.add_mutually_exclusive_group()
    stores.add_argument("--into-store", metavar="STORE", help="the folder of a store to write tables to")
    stores.add_argument("--from-store", metavar="STORE", help="the folder of a store to find tables in")
    parser.add_argument("--plt", dest="command", action="store_const", const="linkplt", default="link", help="adds rows for plain lazy .plts, as linkplt does")
    parser.add_argument("--version", type=int, choices=(2, 3), default=2, help="of the tables: GNU binutils from 2.46 on read 3 only; sf_tool reads 2 only")
    parser.add_argument("--again", action="store_true", help="replaces a table that a file or the store has")
    parser.add_argument("--lenient", action="store_true", help="the status is 0 also if files are refused or have none, and 1 if one failed")
    parser.add_argument("-j", dest="jobs", metavar="N", type=jobs, default=os.cpu_count(), help="files in parallel, by default as many as processors")
    parser.add_argument("--tool", metavar="PROGRAM", help="in place of the sf_tool beside this script or on PATH")
    parser.add_argument("--objcopy", metavar="PROGRAM", default="objcopy", help="such as aarch64-linux-gnu-objcopy")
    parser.add_argument("files", nargs="+", metavar="FILE|DIR")
    given = parser.parse_args(words)
    for stream in (sys.stdout, sys.stderr):
        stream.reconfigure(errors="backslashreplace")
    files, lost = find_files(given.files)
    given.tool = program.beside(NAME, given.tool)
    if given.from_store:
        return from_store(given, files, lost)
    if not given.into_store and not shutil.which(given.objcopy):
        sys.exit(f"{NAME}: there is no {given.objcopy}, a command of binutils")
    summary = Summary()
    for line in lost:
        summary.note(str(line), "failed", "", None)
    try:
        add_all(given, files, summary)
        status = summary.status(given.lenient)
    except KeyboardInterrupt:
        status = INTERRUPTED
    summary.show()
    return status
