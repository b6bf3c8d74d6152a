"""Runs the program on the files of cases with some bytes changed.

    ./x mutate SECONDS [SEED]                   for this many seconds, with the program that was built; the default seed is 1
    ./x mutate SECONDS [SEED] --tool PROGRAM    with another one

The same seed tries the same runs in the same order, on any machine. Each run is made twice, each time in its own folder, and has to

- end within its time, with a status from 0 to 7 and not by a signal;
- write nothing to standard error on 0 and 1, but for files that `procbacktrace` passes, and one line of the program's own on 2 to 7;
- make no OUT, and leave every other file as it was, on 2, 3, 5, 6 and 7;
- give the same status, streams and files both times.

If the words name the changed file once, as one that is read, a third run has a named pipe in its place. Of a pipe the program reads
all, and of a file the parts that it needs: both have to come to the same.

A run that does not is shown, with the seed and its number, and its files are kept. The last line is `N runs, M failed`.
"""

import contextlib
import os
import random
import re
import subprocess
import tempfile
import threading
import time

from kiblawen import cases, commands, common, program

SECONDS = 20
# What the program says on standard error, by status (docs/messages.md).
GROUPS = "elf|place|reloc|record|insn|machine|section|core|module"
VALUES = r"\w+(?: 0x[0-9a-f]+)*"
LINES = {
    2: r"usage", 3: r"read .+", 4: r"write (?:output|file .+)", 5: rf"refused (?:\d+ (?:{GROUPS})|link) {VALUES}",
    6: r"memory", 7: r"limit (?:inputs|total|functions|rows|threads|file \d+)",
}
PASSED = re.compile(rf"(?:passed .+: (?:{GROUPS}|link) {VALUES}\n)*")
# The commands that write a file, which the first word after them names.
WITH_OUT = {form.split()[0].encode() for form, _ in commands.commands() if " OUT" in form}
# Values that are written over a byte or a word: the ends of ranges.
ENDS = [0, 1, 0x7F, 0x80, 0xFF]


def is_plain(case):
    """Whether the case can be run with changed bytes: files in memory alone, and streams as they are."""
    return bool(case.files) and not case.prepare and not any(isinstance(it, cases.Extended) for it in case.files.values())


def all_cases():
    for path in cases.all_paths():
        yield from filter(is_plain, cases.Reader(path).cases)


def changed(chance, contents):
    """The contents with one to eight changes: a byte, a word, a piece that is repeated or left out, a cut."""
    bytes_ = bytearray(contents)
    for _ in range(chance.choice((1, 1, 1, 2, 3, 8))):
        if not bytes_:
            return bytes(chance.randrange(256) for _ in range(chance.randrange(40)))
        at, kind = chance.randrange(len(bytes_)), chance.randrange(8)
        if kind < 3:
            bytes_[at] = chance.choice([*ENDS, chance.randrange(256), bytes_[at] ^ 1 << chance.randrange(8)])
        elif kind < 5:
            width = chance.choice((2, 4, 8))
            bytes_[at : at + width] = chance.choice((0, 1, 2**31 - 1, 2**31, 2**width - 1, chance.getrandbits(16), len(contents))).to_bytes(8, "little")[:width]
        elif kind == 5:
            bytes_[at:at] = bytes_[at : at + chance.randrange(1, 64)]
        elif kind == 6:
            del bytes_[at : at + chance.randrange(1, 32)]
        else:
            del bytes_[at:]
    return bytes(bytes_)


@contextlib.contextmanager
def pipe(path, contents):
    """A named pipe at this path, which gives the contents to the first that opens it."""

    def feed():
        # Who opened it may close it before its end.
        with contextlib.suppress(BrokenPipeError), open(path, "wb") as file:
            file.write(contents)

    os.makedirs(os.path.dirname(path), exist_ok=True)
    os.mkfifo(path)
    feeder = threading.Thread(target=feed)
    feeder.start()
    try:
        yield
    finally:
        # If nobody has opened it, the feeder still waits for a reader.
        os.close(os.open(path, os.O_RDONLY | os.O_NONBLOCK))
        feeder.join()
        os.remove(path)


def run_once(tool, words, files, piped=None):
    """Runs the program in a folder of its own, with a pipe in place of a file: status, both streams, and the files afterwards."""
    with tempfile.TemporaryDirectory(prefix="mutate-") as room:
        for name, contents in files.items():
            if name != piped:
                cases.put(os.path.join(room, name), contents)
        fed = pipe(os.path.join(room, piped), files[piped]) if piped else contextlib.nullcontext()
        try:
            with fed:
                ran = subprocess.run([tool, *words], cwd=room, env={}, stdin=subprocess.DEVNULL, capture_output=True, timeout=SECONDS, check=False)
        except subprocess.TimeoutExpired:
            return None
        after = {piped: files[piped]} if piped else {}
        for name in cases.files_below(room):
            with open(os.path.join(room, name), "rb") as file:
                after[name] = file.read()
    return ran.returncode, ran.stdout, ran.stderr, after


def places_named(name, words):
    """The places of the words that name the file, alone or beside a kind or an address."""
    return [place for place, word in enumerate(words) for part in re.split(rb"[@:]", word) if os.path.normpath(part) == os.fsencode(name)]


def is_read_once(name, words):
    """Whether the words name the file once, and as one that is read."""
    places = places_named(name, words)
    return len(places) == 1 and places[0] > (1 if words[0] in WITH_OUT else 0)


def fault_of(words, files, came, again, by_pipe):
    """What is wrong with a run, or nothing."""
    if None in (came, again, by_pipe):
        return f"has not ended after {SECONDS} seconds"
    status, _, errors, after = came
    if status not in range(8):
        return f"ends with status {status}"
    said = errors.decode(errors="replace")
    if status < 2 and said and not (words[0] == b"procbacktrace" and PASSED.fullmatch(said)):
        return f"says {errors[:200]} with status {status}"
    if status >= 2 and not re.fullmatch(LINES[status] + "\n", said):
        return f"says {errors[:200]} with status {status}"
    if status in (2, 3, 5, 6, 7) and after != files:
        return f"changes files with status {status}"
    if came != again:
        return "comes to something else when it is run again"
    if came != by_pipe:
        return "comes to something else by a pipe"
    return None


def main(words):
    parser = common.parser(__name__, __doc__)
    program.add_option(parser)
    parser.add_argument("seconds", type=float, metavar="SECONDS")
    parser.add_argument("seed", type=int, nargs="?", default=1, metavar="SEED")
    given = parser.parse_args(words)
    tool, seed = program.find(__name__, given.tool, has_to_be_new=True), given.seed
    plain, chance = list(all_cases()), random.Random(seed)
    runs, failed, end = 0, 0, time.monotonic() + given.seconds
    while time.monotonic() < end:
        case = chance.choice(plain)
        files, name = dict(case.files), chance.choice(sorted(case.files))
        files[name] = changed(chance, files[name])
        came, again = (run_once(tool, case.words, files) for _ in range(2))
        by_pipe = run_once(tool, case.words, files, name) if is_read_once(name, case.words) else came
        runs += 1
        fault = fault_of(case.words, files, came, again, by_pipe)
        if fault:
            failed += 1
            kept = tempfile.mkdtemp(prefix=f"mutate-{seed}-{runs}-")
            for name, contents in files.items():
                cases.put(os.path.join(kept, name), contents)
            print(f"FAILED seed {seed} run {runs}, {case.place}: {case.name}", f"  {b' '.join(case.words).decode(errors='replace')[:300]}", f"  {fault}", f"  its files are in {kept}", sep="\n")
    print(f"{runs} runs, {failed} failed")
    return 1 if failed or not runs else 0
