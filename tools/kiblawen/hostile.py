"""Runs the program on inputs made to be slow or to take much memory, and compares what they take with their limits.

    ./x bench hostile                    all inputs at 1, 2 and 16 MiB
    ./x bench hostile --small            those with limits, at 1 and 2 MiB: what `./x gate` does, as a test of the limits
    ./x bench hostile --mib 2,64 NAME .. these sizes; these inputs only
    ./x bench hostile --tool PROGRAM     another program

By default it runs the program that `sh demo/run` builds. A line has the input's name, its command and size, the processor time in seconds, the
peak memory in MiB, the MiB of its files and of its output, its status, and the line on standard error. A line with EXCEEDS has a limit that
was exceeded; the status is 1 if there is one. tools/kiblawen/inputs.py makes the inputs; each is well formed, or is refused at its end. The files
made are in bench/out. The limits are the defaults of `Limits`, except where the table INPUTS has others; an input with None there has none. A new
input needs a maker in inputs.py and a line in the table.
"""

import collections
import os
import resource
import shutil
import signal
import subprocess

from kiblawen import common, measure, program

OUT = common.at_top("bench", "out")
MIB = 1 << 20

# The seconds of processor time after which a run is ended, usually and with `--small`, and the address space that it has.
SECONDS, SECONDS_SMALL, SPACE = 20, 4, 8 << 30
# What takes less is not compared with the size before: reading the files and starting the program count for as much.
ENOUGH = 0.5
# What exceeds a limit of time is run again, up to TIMES in all, and the least counts: a busy machine makes a run look slow, but not FAR times as slow.
TIMES, FAR = 3, 4
# So much memory is free: that of the program itself, and of this script, which counts for a run until the program begins; and for each file the piece
# that is read of it at a time.
FREE, PIECE = 16 * MIB, 64 << 10


class Limits:
    """What an input may take: seconds at up to 16 MiB, and for each MiB of a larger one; how many times as long at twice the size; and bytes of memory
    for each byte of its files and each byte that it writes."""

    def __init__(self, seconds=2, each=0.125, growth=3, files=4, written=4):
        self.seconds, self.each, self.growth, self.files, self.written = seconds, each, growth, files, written

    def most_seconds(self, run):
        return max(self.seconds, self.each * run.mib)

    def time(self, run, before):
        """The limits of time that a run exceeds, and the run before at a smaller size."""
        most = self.most_seconds(run)
        if run.seconds > most:
            yield "%.2f s at %g MiB, of %.2f" % (run.seconds, run.mib, most)
        if before and run.seconds > ENOUGH:
            times = run.seconds / max(before.seconds, 0.01)
            if times > self.growth * run.mib / before.mib / 2:
                yield "%.1f times as long at %g MiB as at %g" % (times, run.mib, before.mib)

    def memory(self, run):
        """The limit of memory that a run exceeds."""
        most = FREE + PIECE * len(run.words) + self.files * run.files + self.written * run.written
        if run.peak > most:
            yield "%.0f MiB of memory at %g MiB, of %.0f" % (run.peak / MIB, run.mib, most / MIB)


USUAL = Limits()
# What prints a line for each row has to hold none of them.
PRINTED = Limits(written=0)
# What holds the records of omitted functions, each as long as it says.
LENDING = Limits(files=14)
# What puts the shortest entries of mapped files in order, and reads a file that is given 512 times each time.
ORDERED = Limits(files=6)
# What stores the rows of one function, whose room doubles.
GROWING = Limits(files=8)
# What reads few parts of a core file, however long it is.
BY_PARTS = Limits(files=0)

# The limits of each input of inputs.py. One without is only shown.
INPUTS = {
    "empty_sections": USUAL,
    "relocated_sections": USUAL,
    "section_names": USUAL,
    "relocations": USUAL,
    "shared_relocations": USUAL,
    "shared_sections": USUAL,
    "groups": USUAL,
    "shared_members": USUAL,
    "one_signature": USUAL,
    "ends_of_a_signature": USUAL,
    "ends_of_unequal_texts": USUAL,
    "signatures_of_open_tables": USUAL,
    "signature_of_many_tables": USUAL,
    "section_names_of_an_open_table": USUAL,
    "signatures_of_inputs": USUAL,
    "one_cie": USUAL,
    "cies_in_turn": USUAL,
    "remembered": USUAL,
    "short_cies": USUAL,
    "link_of_tiny_records": USUAL,
    "verify_of_tiny_records": LENDING,
    "rows_of_one_record": USUAL,
    "merged_sections": USUAL,
    "merge_of_shared_rows": USUAL,
    "merge_of_one_section_again": USUAL,
    "dump_of_shared_rows": PRINTED,
    "slim_of_shared_rows": USUAL,
    "merge_of_all_rows": USUAL,
    "dump_of_all_rows": PRINTED,
    "slim_of_all_rows": USUAL,
    "upgrade_of_shared_rows": USUAL,
    "upgrade_of_all_rows": USUAL,
    "upgrade_of_a_long_function": GROWING,
    "verify_of_all_rows": USUAL,
    "lookup_among_nested": USUAL,
    "lookup_in_a_long_function": USUAL,
    "walk_among_nested": USUAL,
    "walk_among_one_end": USUAL,
    "walk_in_a_long_function": USUAL,
    "walk_in_65536_rows": USUAL,
    "backtrace_in_a_long_function": USUAL,
    "walk_over_segments": USUAL,
    "walk_over_falling_segments": USUAL,
    "deep_walk_over_falling_segments": USUAL,
    "walk_over_shared_segments": USUAL,
    "walk_over_chains": USUAL,
    "notes": USUAL,
    "notes_last": USUAL,
    "segments_of_notes": USUAL,
    "segments_of_threads": USUAL,
    "process_among_nested": USUAL,
    "process_in_a_long_function": USUAL,
    "entries_that_overlap": USUAL,
    "entries_with_one_end": USUAL,
    "entries_of_one_file": USUAL,
    "files_and_a_long_name": USUAL,
    "files_and_alike_names": USUAL,
    "file_of_many_candidates": USUAL,
    "files_of_many_candidates": ORDERED,
    "candidates_of_many_segments": USUAL,
    "executables_over_falling_segments": USUAL,
    "notes_of_a_module": USUAL,
    "loads_and_notes_of_a_module": USUAL,
    "process_with_a_short_identifier": BY_PARTS,
    "backtrace_over_signals": USUAL,
    "backtrace_over_signals_of_one_entry": LENDING,
    "deep_backtrace": USUAL,
    "backtrace_with_long_names": USUAL,
    "backtrace_of_many_files": USUAL,
    "backtrace_of_one_file_again": USUAL,
    "backtrace_past_other_files": USUAL,
}


class Run:
    """What a command took at a size, at the least, and how it ended."""

    def __init__(self, mib, words, folder):
        self.mib, self.words, self.folder = mib, words, folder
        self.seconds, self.peak, self.written, self.end = float("inf"), 0, 0, ""
        self.files = sum(os.path.getsize(it.path) for it in os.scandir(folder))

    def once(self, tool, seconds):
        """Runs it, for this many seconds at most; returns whether it ended by itself."""
        output, errors = os.path.join(OUT, "output"), os.path.join(OUT, "errors")

        def limited():
            resource.setrlimit(resource.RLIMIT_CPU, (seconds, seconds + 1))
            resource.setrlimit(resource.RLIMIT_AS, (SPACE, SPACE))

        with open(errors, "wb") as file:
            status, took, peak = measure.run([tool] + self.words, output, stderr=file, cwd=self.folder, preexec_fn=limited)
        self.peak = max(self.peak, peak << 10)
        if status == -signal.SIGXCPU:
            self.end = "ended after %d s" % seconds
            return False
        self.seconds = min(self.seconds, took)
        out = os.path.join(self.folder, "OUT")
        self.written = os.path.getsize(output) + (os.path.getsize(out) if os.path.exists(out) else 0)
        with open(errors, encoding="utf-8", errors="replace") as file:
            self.end = "%d %s" % (status, file.read().strip())
        return True

    def line(self):
        seconds = "%8.2f" % self.seconds if self.seconds != float("inf") else "       -"
        return "%7s %5g MiB %s s %6.0f MiB %8.1f + %.1f MiB  %s" % (
            self.words[0], self.mib, seconds, self.peak / MIB, self.files / MIB, self.written / MIB, self.end)


def made(names, sizes):
    """The runs of each input in turn, at one size after the other. A few inputs are made ahead, by processes of their own."""
    waiting = collections.deque()

    def first():
        name, mib, folder, maker = waiting.popleft()
        words, _ = maker.communicate()
        if maker.returncode != 0:
            common.fail("bench", "%s can't be made" % name)
        return name, Run(mib, words.decode().split("\n")[:-1], folder)

    for name in names:
        for mib in sizes:
            folder = os.path.join(OUT, "%s-%g" % (name, mib))
            os.makedirs(folder)
            words = common.module_words("inputs", name, str(int(mib * MIB)), folder)
            waiting.append((name, mib, folder, subprocess.Popen(words, stdout=subprocess.PIPE, env=common.module_environment())))
            if len(waiting) > (os.cpu_count() or 1):
                yield first()
    while waiting:
        yield first()


def main(words):
    parser = common.parser("bench", __doc__)
    program.add_option(parser)
    parser.add_argument("--small", action="store_true")
    parser.add_argument("--mib", metavar="MIB,..")
    parser.add_argument("names", nargs="*", metavar="NAME")
    given = parser.parse_args(words)
    tool = program.find("bench", given.tool)
    unknown = [it for it in given.names if it not in INPUTS]
    if unknown:
        common.fail("bench", "no input %s; there are %s" % (unknown[0], ", ".join(INPUTS)))
    sizes = sorted(float(it) for it in (given.mib or ("1,2" if given.small else "1,2,16")).split(","))
    names = given.names or [name for name, limits in INPUTS.items() if limits or not given.small]
    seconds = SECONDS_SMALL if given.small else SECONDS
    shutil.rmtree(OUT, ignore_errors=True)
    os.makedirs(OUT)
    print("Input, command, size, processor time, peak memory, files + what was written, status", flush=True)
    exceeded, before, stopped = [], None, None
    for name, run in made(names, sizes):
        limits, before = INPUTS[name], before if before and before[0] == name else None
        if stopped == name:
            print("%-34s %7s %5g MiB        -   not run: it is larger" % (name, run.words[0], run.mib), flush=True)
        else:
            for _ in range(TIMES):
                if not run.once(tool, seconds):
                    stopped = name
                    break
                found = list(limits.time(run, before and before[1])) if limits else []
                if not found or run.seconds > FAR * limits.most_seconds(run):
                    break
            found = (["ended after %d s at %g MiB" % (seconds, run.mib)] if stopped == name else found) + (list(limits.memory(run)) if limits else [])
            print("%-34s %s" % (name, run.line()), flush=True)
            for text in found if limits else []:
                print("%-34s EXCEEDS %s" % (name, text), flush=True)
                exceeded.append(name)
            before = name, run
        shutil.rmtree(run.folder)
    shutil.rmtree(OUT, ignore_errors=True)
    print("%d inputs, %d exceed a limit" % (len(names), len(set(exceeded))))
    return 1 if exceeded else 0
