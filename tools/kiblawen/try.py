"""Runs command lines of the program unproved: the same sources, built with run-time checks, in a minute or two.

    ./x try WORDS .. [-- WORDS ..]

    ./x try link echo.sframe@0x5000 echo@0x0 -- lookup echo.sframe@0x5000 0x1159

Command lines after `--` are run by the same build, one after the other. Names count from the folder where the script is started, and OUT is
written. Standard output and standard error are the program's, and the status is that of the first command line that doesn't end with 0. The
status is 125 if there is no such run: `rt try` doesn't build the program here, a run prints more than 1 MiB or takes longer than 10 minutes,
or a check stops it. Nothing is proved or kept, and `rt` is all that is needed. `sh demo/run` proves the program and builds it.
"""

import os
import re
import shutil
import signal
import subprocess
import sys
import tempfile

from kiblawen import commands, common

SECONDS = 600
# The status if the program was not run to its end.
NO_RUN = 125
# The words of a command's form that are names of files.
NAME = re.compile(r"(?:OUT|IN|FILE)@\w+|CORE|FILE")
BARE = re.compile(r"eh-(?:amd64|aarch64):")
# What `rt try` prints after what a run wrote to standard error: how it ended.
ENDED = re.compile(rb"(?m)^case=\S+ run=(\S+?)(?: status=(\d+))? .*\n")
# Why a run has no end: the second of its two lines, since the interpreter takes no program that reads files.
REASON = re.compile(rb"(?m)^checked: .*\n")


class Line:
    """A command line with names that count from any folder, and what it printed and came to."""

    def __init__(self, words, forms):
        self.names, self.words = {}, words[:1]
        kinds = forms.get(words[0], []) if words else []
        for at, word in enumerate(words[1:]):
            # In `FILE ..` the dots are for more of the same.
            kind = kinds[min(at, len(kinds) - 1)] if kinds else ""
            kind = kinds[-2] if kind == ".." else kind
            self.words.append(self.absolute(word, kind) if NAME.fullmatch(kind) else word)

    def absolute(self, word, kind):
        """The word with an absolute name."""
        bare = BARE.match(word) if kind.startswith("IN@") else None
        start = bare.end() if bare else 0
        named = word[start:]
        if not named or named[0] in "/@":
            return word
        name = named.rpartition("@")[0] if "@" in kind else named
        folder = os.path.join(os.getcwd(), "")
        self.names[os.fsencode(folder + name)] = os.fsencode(name)
        return word[:start] + folder + named

    def show(self, printed, said):
        """Prints the output, with the names as they were given."""
        for name, given in self.names.items():
            said = said.replace(name, given)
        sys.stdout.buffer.write(printed)
        sys.stdout.flush()
        sys.stderr.buffer.write(said)
        sys.stderr.flush()


def split(words):
    """The command lines."""
    found = [[]]
    for word in words:
        if word == "--":
            found.append([])
        else:
            found[-1].append(word)
    return found


def build_and_run(lines, names):
    """Runs the command lines by one build, under these names. Returns what was printed on both streams."""
    with tempfile.TemporaryDirectory() as room:
        for line, name in zip(lines, names):
            # The file of this name is the run's standard input.
            for path, text in ((name, ""), (f"{name}.args", "".join(f"{it}\n" for it in line.words))):
                with open(os.path.join(room, path), "w", encoding="utf-8", errors="surrogateescape") as file:
                    file.write(text)
        words = ["rt", "try", "--seconds", str(SECONDS), "--cases", room]
        how = {"cwd": common.at_top("crates", "sf_tool"), "stdin": subprocess.DEVNULL, "stdout": subprocess.PIPE, "stderr": subprocess.PIPE}
        with subprocess.Popen(words, **how) as ran:
            try:
                return ran.communicate()
            finally:
                ran.terminate()


def run(lines):
    """Runs the command lines, and prints what they print. Returns the status."""
    # No run prints this.
    token = os.urandom(8).hex()
    names = [f"{at:06}{token}" for at in range(len(lines))]
    printed, said = build_and_run(lines, names)
    pieces = re.split(f"== (\\d{{6}}{token})\n".encode(), printed)
    printed, status = dict(zip(pieces[1::2], pieces[2::2])), 0
    for line, name in zip(lines, names):
        ended = ENDED.search(said)
        if not ended or ended[1] != b"ended":
            why = REASON.search(said[: ended.end()]) if ended else None
            sys.stderr.buffer.write(why[0] if why else said)
            print(f"./x try: {' '.join(line.words)} was not run to its end", file=sys.stderr)
            return NO_RUN
        line.show(printed.get(name.encode(), b""), said[: ended.start()])
        said, status = said[ended.end() :], status or int(ended[2])
    return status


def main(words):
    forms = {form.split()[0]: form.split()[1:] for form, _ in commands.commands()}
    # `rt try` takes words from a file of lines, and has a meaning of its own for the braces.
    if not shutil.which("rt") or any("\n" in it or it == "{}" for it in words):
        print("./x try: there is no rt on PATH, or a word is {} or has a line feed", file=sys.stderr)
        return NO_RUN
    # What `rt try` has made is removed.
    for number in (signal.SIGINT, signal.SIGTERM, signal.SIGHUP):
        signal.signal(number, lambda number, _: sys.exit(128 + number))
    return run([Line(it, forms) for it in split(words)])
