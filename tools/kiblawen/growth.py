"""Refuses memory to the program: each allocation in turn, and all past a bound.

    ./x growth                   with the program that was built
    ./x growth --tool PROGRAM    with another one

The runs are those of the cases that end with 0 or 1, the first run of each case. A run is made twice for each call that asks for memory
(malloc, calloc, realloc and the aligned ones, counted by a library that is loaded before the C library). In the first only that call gets none,
in the second it and all later ones. Then each command is run on larger files with less address space than it needs, from what it needs to start
up to what it needs to end.

Each such run has to end with status 6, the line `memory` and nothing printed, and to leave all files as they were. One that does not is shown. But
if only one call gets none, the run may ask again: it may then end as with enough memory, and is counted.
The last line is `N refusals, A asked again, M bounds, K failed`; the status is 1 if one failed, or if nothing was tried. It needs cc and the GNU C
library.
"""

import concurrent.futures
import os
import subprocess
import tempfile

from kiblawen import cases, common, inputs, program

SECONDS = 60
# Bounds between the least that a run starts with and what it needs.
BOUNDS = 8
# The functions, threads and frames of the runs with a bound, and the bytes of the file with signal frames.
FUNCTIONS, THREADS, SIGNALS = 20000, 500, 1 << 20
# The call with the number REFUSE gets no memory, and makes the file REFUSED; nor do those after it where there is REFUSE_REST.
REFUSING = r"""
#include <errno.h>
#include <fcntl.h>
#include <stddef.h>
#include <stdlib.h>
#include <unistd.h>

extern void *__libc_malloc(size_t), *__libc_calloc(size_t, size_t), *__libc_realloc(void *, size_t), *__libc_memalign(size_t, size_t);
static long made;

static int is_refused(void)
{
    const char *number = getenv("REFUSE");
    if (!number || ++made < atol(number) || (made > atol(number) && !getenv("REFUSE_REST")))
        return 0;
    if (made == atol(number))
        close(open(getenv("REFUSED"), O_CREAT | O_WRONLY, 0600));
    errno = ENOMEM;
    return 1;
}

void *malloc(size_t size) { return is_refused() ? NULL : __libc_malloc(size); }
void *calloc(size_t count, size_t size) { return is_refused() ? NULL : __libc_calloc(count, size); }
void *realloc(void *old, size_t size) { return is_refused() ? NULL : __libc_realloc(old, size); }
void *memalign(size_t align, size_t size) { return is_refused() ? NULL : __libc_memalign(align, size); }
void *aligned_alloc(size_t align, size_t size) { return memalign(align, size); }
int posix_memalign(void **made_at, size_t align, size_t size) { return (*made_at = memalign(align, size)) ? 0 : ENOMEM; }
"""


def run(tool, words, files, bound=None, environment=None):
    """Runs the program in a folder of its own: its status, both streams, and the files afterwards."""
    words = [os.fsencode(tool), *words]
    if bound is not None:
        words = ["/bin/sh", "-c", f'ulimit -v {bound}; exec "$@"', "sh", *words]
    with tempfile.TemporaryDirectory(prefix="growth-") as room:
        for name, contents in files.items():
            cases.put(os.path.join(room, name), contents)
        ran = subprocess.run(words, cwd=room, env=environment or {}, stdin=subprocess.DEVNULL, capture_output=True, timeout=SECONDS, check=False)
        after = {}
        for name in cases.files_below(room):
            with open(os.path.join(room, name), "rb") as file:
                after[name] = file.read()
    return ran.returncode, ran.stdout, ran.stderr, after


def worked_runs():
    """The name, words and files of the first run of each case that ends with 0 or 1, with files in memory and streams as they are."""
    for path in cases.all_paths():
        for case in cases.Reader(path).cases:
            zeros = any(isinstance(it, cases.Extended) for it in case.files.values())
            if case.status in (0, 1) and not case.prepare and not zeros:
                first = next(case.runs())
                yield f"{case.place}: {first.name}", first.words, first.files


class Tried:
    """How many runs were made, and how many failed."""

    def __init__(self):
        self.refusals, self.again, self.bounds, self.failed = 0, 0, 0, 0

    def add(self, other):
        self.refusals, self.again, self.failed = self.refusals + other.refusals, self.again + other.again, self.failed + other.failed

    def look(self, name, files, came, whole=None):
        """Whether a run without memory ended as it has to. One that may ask again may end as the whole one."""
        if came == (6, b"", b"memory\n", files):
            return
        if came == whole:
            self.again += 1
            return
        self.failed += 1
        status, output, errors, after = came
        changed = sorted(it for it in {*files, *after} if files.get(it) != after.get(it))
        print(f"FAILED {name}: status {status}, errors {errors[:200]}, output {output[:200]}, changed files {changed}", flush=True)


def refuse_each(tool, library, room, name, words, files):
    """Refuses each call of a run, alone and with those after it, up to the first number that it does not come to."""
    tried, mark, number, whole = Tried(), os.path.join(room, "refused"), 1, run(tool, words, files)
    while True:
        refusing = {"LD_PRELOAD": library, "REFUSE": str(number), "REFUSED": mark}
        came = run(tool, words, files, environment=refusing)
        if not os.path.exists(mark):
            return tried
        tried.refusals += 2
        tried.look(f"{name}, call {number}", files, came, whole)
        tried.look(f"{name}, call {number} and those after it", files, run(tool, words, files, environment={**refusing, "REFUSE_REST": "1"}))
        os.remove(mark)
        number += 1


def large_runs(tool, room):
    """The words and files of a run of each command that takes some MiB."""

    def made(kind, count):
        path = os.path.join(room, kind)
        subprocess.run(common.module_words("made", path, kind, str(count)), env=common.module_environment(), check=True)
        with open(path, "rb") as file:
            return file.read()

    core, frames = made("threads", THREADS), made("functions", FUNCTIONS)
    linked = run(tool, [b"link", b"s@0x50000000", b"eh-amd64:e@0x40000000"], {"e": frames})
    section = linked[3]["s"]
    of_inputs, of_section = {"e": frames}, {"s": section}
    yield b"link o@0x50000000 eh-amd64:e@0x40000000", of_inputs
    yield b"linkplt o@0x50000000 eh-amd64:e@0x40000000", of_inputs
    yield b"merge o@0x50000000 s@0x50000000", of_section
    yield b"slim o@0x50000000 s@0x50000000", of_section
    yield b"upgrade o@0x50000000 s@0x50000000", of_section
    yield b"dump s@0x50000000", of_section
    yield b"lookup s@0x50000000 0x1005", of_section
    yield b"verify s@0x50000000 eh-amd64:e@0x40000000", {**of_inputs, **of_section}
    yield b"walk s@0x50000000 c 64", {"c": core, **of_section}
    yield b"backtrace o@0x50000000 c 64 eh-amd64:e@0x40000000", {"c": core, **of_inputs}
    words, files = inputs.backtrace_over_signals(SIGNALS)
    yield " ".join(words).encode(), files
    yield b"gen %d" % FUNCTIONS, {}


def least(low, high, is_enough):
    """The least number above `low` that is enough, where `high` is."""
    while high - low > 1:
        middle = (low + high) // 2
        low, high = (low, middle) if is_enough(middle) else (middle, high)
    return high


def bound_each(tried, tool, room):
    """Runs each command with less address space than it needs."""
    starts = least(0, 1 << 20, lambda bound: run(tool, [], {}, bound)[:3] == (2, b"", b"usage\n"))
    for words, files in large_runs(tool, room):
        whole = run(tool, words.split(), files)
        needs = least(starts, 1 << 20, lambda bound: run(tool, words.split(), files, bound) == whole)
        print(f"{words.decode()}: status {whole[0]}, starts with {starts} KiB of address space, needs {needs}", flush=True)
        for bound in sorted({starts + (needs - 1 - starts) * part // BOUNDS for part in range(BOUNDS + 1)} - {needs}):
            tried.bounds += 1
            tried.look(f"{words.decode()} with {bound} KiB", files, run(tool, words.split(), files, bound))


def main(words):
    parser = common.parser(__name__, __doc__)
    program.add_option(parser)
    tool = program.find(__name__, parser.parse_args(words).tool, has_to_be_new=True)
    tried = Tried()
    with tempfile.TemporaryDirectory(prefix="growth-") as room:
        library = os.path.join(room, "refusing.so")
        subprocess.run(["cc", "-O1", "-fno-builtin", "-shared", "-fPIC", "-x", "c", "-o", library, "-"], input=REFUSING.encode(), check=True)
        with concurrent.futures.ThreadPoolExecutor(os.cpu_count()) as pool:
            for of_run in pool.map(lambda it: refuse_each(tool, library, tempfile.mkdtemp(dir=room), *it), worked_runs()):
                tried.add(of_run)
        bound_each(tried, tool, room)
    print(f"{tried.refusals} refusals, {tried.again} asked again, {tried.bounds} bounds, {tried.failed} failed")
    return 1 if tried.failed or not tried.refusals or not tried.bounds else 0
