"""Whole processes walked by `procbacktrace`, by gdb and, if available, by eu-stack, with all files that they had mapped.

gdb stops each and makes a core file. Of each thread, the frames are those of eu-stack from the innermost on, and each is one of gdb's, in order. Where
eu-stack shows more, a line says how many and why: where no rule holds, with the reason for which the function there was omitted.
"""

import os
import re
import shutil
import subprocess
import sys

from kiblawen import common
from kiblawen.program import report
from kiblawen.stopping import NO_CORE, compiled, in_words, listed, stopped

# The handler of a signal ends the process. The signal came while the C library sorted, by way of a function that it called.
HANDLER = """
#include <signal.h>
#include <stdlib.h>
static void stop(int number) { (void)number; abort(); }
static int less(const void *a, const void *b) { *(volatile int *)0 = 1; return *(const int *)a - *(const int *)b; }
static int sort(int last)
{
    int numbers[8] = { 8, 7, 6, 5, 4, 3, 2, last };
    qsort(numbers, 8, sizeof *numbers, less);
    return numbers[0];
}
int main(int count, char **words)
{
    struct sigaction action = { .sa_handler = stop };
    sigaction(SIGSEGV, &action, 0);
    return sort(count) + (words == 0);
}
"""
THROWS = """
#include <cstdlib>
static int less(const void *a, const void *b) { if (*(const int *)b == 1) throw 1; return *(const int *)a - *(const int *)b; }
static int sort(int last)
{
    int numbers[8] = { 8, 7, 6, 5, 4, 3, 2, last };
    std::qsort(numbers, 8, sizeof *numbers, less);
    return numbers[0];
}
int main(int count, char **) { return sort(count); }
"""
PANICS = """
fn less(numbers: &[u32], one: usize, other: usize) -> std::cmp::Ordering { numbers[one].cmp(&numbers[other]) }
fn main() {
    let mut places = [0, 1, 2, 3];
    places.sort_by(|one, other| less(&[3, 2, 1], *one, *other));
}
"""
THREADS = """
import bz2, ctypes, decimal, hashlib, json, lzma, os, queue, select, socket, sqlite3, ssl, threading, time, zlib
held = threading.Lock()
held.acquire()
def waits(): held.acquire()
def sleeps(): time.sleep(1000)
def selects(): select.select([], [], [], 1000)
def takes(): queue.Queue().get()
def reads(): os.read(os.pipe()[0], 1)
def polls(): select.poll().poll()
for it in (waits, sleeps, selects, takes, reads, polls):
    threading.Thread(target=it, daemon=True).start()
time.sleep(0.1)
sorted([2, 1], key=lambda it: os.abort())
"""
# The line of a frame in a file, and the line after the last frame where no rule holds.
IN_FILE = re.compile(r" +#\d+ pc (0x\w+).* (\S+)\+(0x\w+)( signal)?$")
OUTSIDE = re.compile(r" +stop outside (0x\w+)$")


def written(path, text):
    with open(path, "w", encoding="utf-8") as file:
        file.write(text)
    return path


def with_handler(room):
    path = os.path.join(room, "handler")
    return [path] if compiled(HANDLER, path) else "there is no C compiler"


def with_exception(room):
    path = os.path.join(room, "throws")
    return [path] if compiled(THROWS, path, language="c++") else "there is no C++ compiler"


def with_panic(room):
    source, path = written(os.path.join(room, "panics.rs"), PANICS), os.path.join(room, "panics")
    if not shutil.which("rustc") or common.output("rustc", "-O", "-C", "panic=abort", "-o", path, source) is None:
        return "there is no rustc"
    return ["env", "RUST_BACKTRACE=1", path]


def with_threads(room):
    return [shutil.which("python3", path="/usr/bin") or sys.executable, written(os.path.join(room, "threads.py"), THREADS)]


def of_git(room):
    git = shutil.which("git")
    return [git, "diff", "--no-index", os.path.join(room, "threads.py"), os.devnull] if git else "there is no git"


# The processes by name: what makes the words of one or says why it can't, and the function at which it is stopped, if it doesn't stop by itself.
PROCESSES = {
    "a handler of a signal that came in a callback of a sort": (with_handler, None),
    "an exception that a callback of a sort throws": (with_exception, None),
    "a panic in a callback of a sort": (with_panic, None),
    "threads of Python": (with_threads, None),
    "git": (of_git, "write"),
}


def is_in_order(few, many):
    """Whether these are some of the others, in their order."""
    rest = iter(many)
    return all(it in rest for it in few)


def reason(tool, room, files, frame, stop):
    """Why a walk ends after the line of its last frame: its last line, and the reason for which the function there was omitted, if it was."""
    shown, outside = IN_FILE.match(frame), OUTSIDE.match(stop)
    if not shown or not outside:
        return stop.strip()
    path, at = next(it for it in files if os.path.basename(it) == shown[2]), int(shown[3], 16) + int(outside[1], 16) - int(shown[1], 16)
    omitted, _ = report(common.output(tool, "linkplt", f"{os.path.join(room, 'section')}@0x0", f"{path}@0x0") or "kept 0 omitted")
    here = [it.reason for start, it in omitted.items() if start <= at < start + it.size]
    return f"{stop.strip()}, {shown[2]}+{at:#x}: {here[0] if here else 'no function'}"


def last_lines(text):
    """The line of each thread's last frame, and that after it, by the thread's number."""
    parts = re.split(r"^thread \d+ pid (\d+)\n", text, flags=re.MULTILINE)
    return {int(number): part.splitlines()[-2:] for number, part in zip(parts[1::2], parts[2::2])}


def compare_threads(found, tool, room, name, process, text):
    ours, ends = listed(text), last_lines(text)
    if not ours or set(ours) != set(process.frames) or (process.eu_stack is not None and set(ours) != set(process.eu_stack)):
        found.differs(f"{name}: the threads are {sorted(ours)}, and others show {sorted(process.frames)}")
        return
    for number, (thread, frames) in enumerate(ours.items()):
        found.count("frames of whole processes", len(frames))
        if not is_in_order(frames, process.frames[thread]):
            found.differs(f"{name}, thread {number}: has {in_words({0: frames})}, and gdb shows {in_words({0: process.frames[thread]})}")
        if process.eu_stack is None:
            continue
        theirs = process.eu_stack[thread]
        found.count("frames of whole processes by eu-stack", len(theirs))
        common_length = min(len(frames), len(theirs))
        if frames[:common_length] != theirs[:common_length]:
            found.differs(f"{name}, thread {number}: has {in_words({0: frames})}, and eu-stack shows {in_words({0: theirs})}")
        elif len(theirs) > len(frames):
            why = reason(tool, room, process.files, *ends[thread])
            found.fewer.append(f"{name}, thread {number}: {len(frames)} of the {len(theirs)} frames of eu-stack; {why}")


def compare_process(found, tool, room, name):
    """Compares one process. Returns why it can't be, or None."""
    make, until = PROCESSES[name]
    words = make(room)
    if isinstance(words, str):
        return words
    process = stopped(os.path.join(room, "core"), *words, until=until)
    if process is None:
        return NO_CORE
    walked = [tool, "procbacktrace", process.core, "1024", *process.files]
    ran = subprocess.run(walked, stdin=subprocess.DEVNULL, capture_output=True, timeout=common.SECONDS, check=False)
    if ran.returncode != 0:
        found.differs(f"{name}: procbacktrace ends with status {ran.returncode}, {ran.stderr.decode(errors='replace').strip()}")
    else:
        found.count("files of whole processes", len(process.files))
        compare_threads(found, tool, room, name, process, ran.stdout.decode())
    os.remove(process.core)
    return None


def compare_stacks(found, tool, room):
    if not shutil.which("gdb"):
        found.passed_over.append("whole processes: there is no gdb")
        return
    place = os.path.join(os.path.realpath(room), "stacks")
    os.makedirs(place)
    for name in PROCESSES:
        why = compare_process(found, tool, place, name)
        if why:
            found.passed_over.append(f"whole processes, {name}: {why}")
