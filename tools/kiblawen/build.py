"""Proves the program and the crates below it, as the gate does, and takes the program from there.

    ./x build [LOG]                 builds crates/sf_tool/out/sf_tool, with a line for each crate
    ./x build --libraries [LOG]     builds libsf_c.a and libkiblawen_link.a, in out/ of the crates sf_c and sf_link_c

What `rt` prints goes to the file LOG, by default demo/out/build.log. The program is built by a plain `rt ci` over a copy of its crates,
without their edits and without the crates of tests and for C. `rt` keeps what that proves, so the next build, and the gate, prove only what
has changed since. From the processor seconds of demo/seconds.txt, and from those that this build has got so far, it estimates the time left.

`rt ci` makes no archives, and keeps no library that `rt lib` takes. So the libraries for C are built by `rt lib`, where they stand: their
crates are proved once more, about half of the program's, unless `rt check` or `rt lib` has done it before.
"""

import functools
import os
import re
import shutil
import signal
import subprocess
import sys
import time

from kiblawen import archive, built, common, program
from kiblawen import crates as crate_list

COPY, LOG = common.at_top("demo", "out", "proved"), common.at_top("demo", "out", "build.log")
# What `rt ci` reads of a crate, but its edits.
PARTS = ("src", "specs", "proofs", "data", "args", "stdin", "stdout", "status")
PROGRAM, LIBRARIES = "sf_tool", ("sf_c", "sf_link_c")
# What `rt ci` says of a crate, and of its functions before that.
KEPT, ENDED = re.compile(r"rt: (\w+) is kept: "), re.compile(r"rt: (\w+) (NOT )?PROVED\b", re.IGNORECASE)
FUNCTIONS = re.compile(r"logic=proved .*?functions=(\d+)")
# What it says of the run: that it waits for another one, or that the disk is too full to keep what is proved.
NOTE = re.compile(r"rt: (note: .*|\w+: another run .*)")
LAST_LINES = 20


@functools.lru_cache(maxsize=None)
def below(name):
    """The crates of this repository that a crate stands on, lowest first."""
    used = {it.name: it.uses for it in crate_list.listed()}
    found = {it for use in used[name] if use in used for it in (use, *below(use))}
    return tuple(it for it in used if it in found)


def copy_crates(names, to, parts=PARTS):
    """Makes a repository of these crates alone."""
    for name in names:
        for part in parts:
            path, copy = common.at_top("crates", name, part), os.path.join(to, "crates", name, part)
            if os.path.isdir(path):
                shutil.copytree(path, copy)
            elif os.path.exists(path):
                shutil.copyfile(path, copy)
    with open(os.path.join(to, "crates.txt"), "w", encoding="utf-8") as file:
        file.writelines(it for it in crate_list.lines() if crate_list.is_crate(it) and crate_list.Crate(it).name in names)
    shutil.copyfile(common.at_top("HANDLES"), os.path.join(to, "HANDLES"))


def processor_seconds(root):
    """The processor seconds of a process and of all that it has started."""
    seconds, started = {}, {}
    for pid in filter(str.isdigit, os.listdir("/proc")):
        try:
            with open(f"/proc/{pid}/stat", encoding="utf-8", errors="replace") as file:
                words = file.read().rpartition(")")[2].split()
        except OSError:
            continue
        # Its own, and its children's that have ended.
        seconds[int(pid)] = sum(map(int, words[11:15])) / os.sysconf("SC_CLK_TCK")
        started.setdefault(int(words[1]), []).append(int(pid))
    found = [root]
    for pid in found:
        found += started.get(pid, ())
    return sum(seconds.get(it, 0) for it in found)


class Plan:
    """How much is left to prove, in the processor seconds of demo/seconds.txt."""

    # The part of all that counts as done at the speed of those seconds before anything is, and how many processors the longest chain has.
    PRIOR, HURRY = 0.05, 2

    def __init__(self, names):
        with open(common.at_top("demo", "seconds.txt"), encoding="utf-8") as file:
            measured = {name: float(number) for name, number in (it.split() for it in file if not it.startswith("#"))}
        usual = sum(measured.values()) / len(measured)
        self.cost = {it: measured.get(it, usual) for it in names}
        self.all, self.left = sum(self.cost.values()), set(names)
        self.processors = len(os.sched_getaffinity(0))

    def done(self):
        return self.all - sum(self.cost[it] for it in self.left)

    def end(self, name, is_kept):
        """Notes that a crate has ended. One that was kept cost nothing."""
        self.left.discard(name)
        if is_kept:
            self.all -= self.cost[name]

    def chains(self):
        """For each crate that is left, the seconds of the longest chain of crates that wait for it, with its own."""
        found = dict.fromkeys(self.left, 0)
        for name in sorted(self.left, key=lambda it: -len(below(it))):
            found[name] += self.cost[name]
            for it in self.left.intersection(below(name)):
                found[it] = max(found[it], found[name])
        return found

    def minutes(self, used, elapsed):
        """How many minutes are left, if the processor seconds were `used` in the seconds since the start."""
        got, chains = max(used / elapsed, 0.1), self.chains()
        # The crates that are being proved count as half done.
        running = sorted((it for it in chains if self.left.isdisjoint(below(it))), key=chains.get)[-max(1, round(got)) :]
        done, prior = self.done() + sum(self.cost[it] for it in running) / 2, self.PRIOR * self.all
        slowness = (prior + used) / (prior + done)
        return slowness * max((self.all - done) / got, max(chains.values()) / (self.HURRY * got / self.processors)) / 60


class Progress:
    """Reads what `rt ci` prints, and prints a line for each crate."""

    def __init__(self, names, rt, began):
        self.plan, self.count, self.rt, self.began = Plan(names), len(names), rt, began
        self.functions, self.all_functions, self.failed = 0, 0, None

    def read(self, line):
        found = FUNCTIONS.match(line)
        if found:
            self.functions = int(found[1])
        found = NOTE.match(line)
        if found:
            print(f"   {found[1]}", flush=True)
        found = KEPT.match(line) or ENDED.match(line)
        if found and found[1] in self.plan.left:
            is_kept = found.re is KEPT
            if not is_kept and found[2]:
                self.failed = found[1]
                return
            self.plan.end(found[1], is_kept)
            self.show(found[1], is_kept)

    def show(self, name, is_kept):
        number = f"{self.count - len(self.plan.left):{len(str(self.count))}}/{self.count}"
        what = "kept from an earlier run"
        if not is_kept:
            self.all_functions += self.functions
            elapsed = time.monotonic() - self.began
            what = f"{self.functions:4} functions {clock(elapsed)} {100 * self.plan.done() / self.plan.all:4.0f} %"
            if self.plan.left:
                what += f"   about {self.plan.minutes(processor_seconds(self.rt), elapsed):.0f} minutes left"
        print(f"   [{number}] {name:16} {what}", flush=True)

    def close(self):
        if self.all_functions:
            print(f"   {self.all_functions} functions were proved in {clock(time.monotonic() - self.began).strip()} minutes.")


def clock(seconds):
    return f"{round(seconds) // 60:3}:{round(seconds) % 60:02}"


def said_by(words, folder, log, read):
    """Runs a command, writes what it prints into the log, and hands each line to `read`. Returns its status; ends it if `read` gives False."""
    with subprocess.Popen(words, cwd=folder, stdin=subprocess.DEVNULL, stdout=subprocess.PIPE, stderr=subprocess.STDOUT) as ran:
        try:
            for line in ran.stdout:
                line = line.decode(errors="replace").replace(COPY, common.TOP)
                print(line, end="", file=log, flush=True)
                if read(ran, line) is False:
                    return 1
            return ran.wait()
        finally:
            ran.terminate()


def prove(log):
    """Proves the program in a copy of its crates, and takes it from there. Returns whether that went well."""
    names = [*below(PROGRAM), PROGRAM]
    shutil.rmtree(COPY, ignore_errors=True)
    try:
        # It is the top of a repository.
        os.makedirs(os.path.join(COPY, ".git"))
        copy_crates(names, COPY)
        # `rt ci` prints its first line after the first crate.
        progress, began = None, time.monotonic()

        def read(ran, line):
            nonlocal progress
            progress = progress or Progress(names, ran.pid, began)
            progress.read(line)
            return progress.failed is None

        if said_by(["rt", "ci"], COPY, log, read):
            return False
        progress.close()
        take(os.path.join(COPY, "crates", PROGRAM, "out", PROGRAM))
        return True
    finally:
        # The gate finds no other repository below its own.
        shutil.rmtree(COPY, ignore_errors=True)


def take(path):
    """Puts the program where it belongs, also while an earlier one runs."""
    os.makedirs(os.path.dirname(program.BUILT), exist_ok=True)
    shutil.copy(path, f"{program.BUILT}.new")
    os.replace(f"{program.BUILT}.new", program.BUILT)


def build_libraries(log):
    """Builds the archives for C. Returns whether that went well."""
    began = time.monotonic()

    def read(_, line):
        found = re.match(r"rt: chose --jobs \d+ for (\w+)", line)
        if found:
            print(f"   {clock(time.monotonic() - began)} {found[1]}", flush=True)

    if any(said_by(["rt", "lib"], common.at_top("crates", it), log, read) for it in LIBRARIES):
        return False
    archive.make(__name__)
    return True


def main(words):
    parser = common.parser(__name__, __doc__)
    parser.add_argument("--libraries", action="store_true")
    parser.add_argument("log", nargs="?", metavar="LOG", default=LOG)
    given = parser.parse_args(words)
    if not shutil.which("rt"):
        common.fail(__name__, "there is no rt on PATH")
    for number in (signal.SIGINT, signal.SIGTERM, signal.SIGHUP):
        signal.signal(number, lambda number, _: sys.exit(128 + number))
    os.makedirs(os.path.dirname(os.path.abspath(given.log)), exist_ok=True)
    commit = built.clean_commit()
    with open(given.log, "w", encoding="utf-8") as log:
        is_built = build_libraries(log) if given.libraries else prove(log)
    if is_built:
        built.write(commit, built.FILES[1:] if given.libraries else built.FILES[:1])
    else:
        print("   It failed; the last lines:", file=sys.stderr)
        with open(given.log, encoding="utf-8") as log:
            sys.stderr.writelines(log.readlines()[-LAST_LINES:])
    return 0 if is_built else 1
