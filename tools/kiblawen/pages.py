"""Runs the sessions on the pages docs/*.md, and compares what they print with what the pages show.

    ./x pages                            all pages, with the program that was built (`sh demo/run`)
    ./x pages PAGE ..                    these pages only, such as docs/messages.md
    ./x pages --tool PROGRAM [PAGE ..]   with another program, such as /usr/bin/sf_tool

A session is a fenced block of the kind `console`. A line that begins with `$ ` is a command for `sh`, lines that begin with `> ` continue it,
and the other lines are what it prints, on both streams. `cat NAME` of a missing source file (NAME.s or NAME.c) makes it from the lines that
follow. The sessions of a page share a folder, which is empty at first. Further words after `console` say what a session needs, as in NEEDS;
if the machine does not have it, the session is skipped, with a line of its own. Each session has 60 seconds.

What a session prints has to be the same on each machine, as it is with small sources for the assembler; what a compiler or linker lays out is
not. The last line is `N passed, M failed, K skipped`; the status is 1 if a session differs or cannot be read, or if nothing was run.
`./x docs --check` looks at links, and at names that a page has to explain.
"""

import os
import re
import subprocess
import tempfile

from kiblawen import common, install, program

FOLDER = common.at_top("docs")
SECONDS = 60
# The line that the shell prints after each command. No command prints it.
MARK = "-- ./x pages: end of a command --"
SOURCE = re.compile(r"cat (\S+\.[cs])")
# Makes a program that stops at once by a signal.
TRAP = "printf '.globl _start\\n_start: ud2\\n' >trap.s && as --64 -o trap.o trap.s && ld -o trap trap.o"
# Makes a shared library, and the source of a program.
LIBRARY = "printf 'int zero;\\n' >zero.c && cc -O1 -fPIC -shared -o libprobe.so zero.c && printf 'int main(void) { return 0; }\\n' >probe.c"
# What a session may need besides `sh` and the program: a name for people, and a command that works where it is there.
NEEDS = {
    "as": ("an assembler for AMD64", "as --64 -o probe.o probe.s"),
    "ld": ("a linker for AMD64", "as --64 -o probe.o probe.s && ld -shared -o probe probe.o"),
    "lld": ("lld", "as --64 -o probe.o probe.s && ld.lld -r -o joined.o probe.o"),
    "binutils": ("readelf, objcopy, ar, nm and size", "as --64 -o a probe.s && readelf -h a && objcopy a b && ar rc c a && nm a && size a"),
    "elfutils": ("eu-strip", "as --64 -o probe.o probe.s && ld -shared -o probe probe.o && eu-strip probe"),
    "gdb": ("gdb that runs programs and makes core files", f"{TRAP} && gdb -nx -batch -ex run -ex 'generate-core-file core' ./trap && [ -s core ]"),
    "cc": ("a C compiler that makes shared libraries", f"{LIBRARY} && cc -O1 -o probe probe.c libprobe.so -Wl,-rpath,. && ./probe"),
    "make": ("make", "make --version"),
    "aarch64": ("an assembler for AArch64", "clang --target=aarch64-linux-gnu -c -o probe.o probe.s"),
}


class Session:
    """The commands of a block, each with the lines that it prints."""

    def __init__(self, place, needs):
        self.place = place
        self.needs = needs
        self.commands = []

    def add(self, line):
        """Reads a line of the block. False where it cannot be there."""
        if line.startswith("$ "):
            self.commands.append((line[2:], []))
        elif not self.commands:
            return False
        elif line.startswith("> ") and not self.commands[-1][1]:
            command, wanted = self.commands[-1]
            self.commands[-1] = (f"{command}\n{line[2:]}", wanted)
        else:
            self.commands[-1][1].append(line)
        return True

    def script(self):
        """The commands for `sh`, with the mark after each. `$?` stays what the command has left."""
        for command, wanted in self.commands:
            source = SOURCE.fullmatch(command)
            if source:
                text = "".join(f"{line}\n" for line in wanted)
                yield f"[ -e {source[1]} ] || cat >{source[1]} <<'{MARK}'\n{text}{MARK}\n"
            yield f"{command}\nsession_status=$?; echo '{MARK}'; (exit $session_status)\n"

    def differences(self, room, environment):
        """Runs the commands in a folder, and shows what differs from the page."""
        try:
            ran = subprocess.run(
                ["sh", "-c", "".join(self.script())],
                cwd=room,
                env=environment,
                stdin=subprocess.DEVNULL,
                stdout=subprocess.PIPE,
                stderr=subprocess.STDOUT,
                timeout=SECONDS,
            )
        except subprocess.TimeoutExpired:
            return [f"  the session had not ended after {SECONDS} seconds"]
        return self.compare(ran.stdout.decode(errors="backslashreplace"))

    def compare(self, printed):
        """Shows what differs from the page in what the script has printed."""
        parts = printed.split(f"{MARK}\n")
        if len(parts) != len(self.commands) + 1 or parts[-1]:
            return ["  the session ended early, or the shell could not read it", *indented(parts[-1].splitlines())]
        found = []
        for (command, wanted), part in zip(self.commands, parts):
            if part.splitlines() != wanted:
                found += [f"  $ {command}", "  wanted", *indented(wanted), "  came", *indented(part.splitlines())]
        return found


def indented(lines):
    return [f"    {line}" for line in lines] or ["    nothing"]


def read_page(path):
    """The sessions of a page, and the lines that cannot be read."""
    page, sessions, faults = os.path.relpath(path, common.TOP), [], []
    kind = session = None
    with open(path, encoding="utf-8") as lines:
        for at, line in enumerate(lines, 1):
            line = line.rstrip("\n")
            if line.startswith("```"):
                words = line[3:].split()
                kind, session = (words[:1] or [""], None) if kind is None else (None, None)
                if kind == ["console"]:
                    session = Session(f"{page}:{at}", words[1:])
                    sessions.append(session)
                    faults += [f"{page}:{at}: `{need}` is nothing that a session can need" for need in words[1:] if need not in NEEDS]
            elif kind is None:
                continue
            elif session is None and line.startswith("$ "):
                faults.append(f"{page}:{at}: a command outside a block of the kind `console`")
            elif session is not None and not session.add(line):
                faults.append(f"{page}:{at}: a session begins with a command")
    if kind is not None:
        faults.append(f"{page}: the last block has no end")
    return sessions, faults


def missing_needs(environment):
    """What this machine does not have."""
    missing = set()
    for need, (_, command) in NEEDS.items():
        with tempfile.TemporaryDirectory(prefix="need-") as room:
            open(os.path.join(room, "probe.s"), "w", encoding="utf-8").close()
            quiet = {"stdin": subprocess.DEVNULL, "stdout": subprocess.DEVNULL, "stderr": subprocess.DEVNULL}
            if subprocess.run(["sh", "-c", command], cwd=room, env=environment, **quiet).returncode != 0:
                missing.add(need)
    return missing


def try_page(path, environment, missing):
    """Runs the sessions of a page. Returns how many passed, failed and were skipped."""
    sessions, faults = read_page(path)
    passed, failed, skipped = 0, len(faults), 0
    for fault in faults:
        print(f"FAILED {fault}")
    with tempfile.TemporaryDirectory(prefix="page-") as room:
        for session in sessions:
            lacking = [NEEDS[need][0] for need in session.needs if need in missing]
            if lacking:
                skipped += 1
                print(f"SKIPPED {session.place}: this machine lacks {' and '.join(lacking)}")
                continue
            found = session.differences(room, environment)
            passed, failed = passed + (not found), failed + bool(found)
            if found:
                print(f"FAILED {session.place}", *found, sep="\n")
    if passed or failed or skipped:
        print(f"{os.path.relpath(path, common.TOP)}: {passed} passed, {failed} failed, {skipped} skipped", flush=True)
    return passed, failed, skipped


def main(words):
    parser = common.parser(__name__, __doc__)
    program.add_option(parser)
    parser.add_argument("pages", nargs="*", metavar="PAGE")
    given = parser.parse_args(words)
    tool = program.find(__name__, given.tool, has_to_be_new=True)
    pages = [os.path.abspath(path) for path in given.pages]
    pages = pages or sorted(os.path.join(FOLDER, name) for name in os.listdir(FOLDER) if name.endswith(".md"))
    with tempfile.TemporaryDirectory(prefix="tool-") as folder:
        os.symlink(tool, os.path.join(folder, "sf_tool"))
        for name in install.SCRIPTS:
            os.symlink(common.at_top("tools", name), os.path.join(folder, name))
        environment = {"PATH": f"{folder}:{os.environ.get('PATH', os.defpath)}", "LC_ALL": "C", "HOME": folder}
        missing = missing_needs(environment)
        counts = [try_page(path, environment, missing) for path in pages]
    passed, failed, skipped = (sum(column) for column in zip(*counts))
    print(f"{passed} passed, {failed} failed, {skipped} skipped")
    return 1 if failed or not passed else 0
