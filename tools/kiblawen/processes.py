"""Processes that make the choice of a file's mapping hard, walked by `procwalk` and `procbacktrace`, by gdb and, if available, by eu-stack.

Each is a program that is made here; gdb stops it and makes a core file. The commands get the program and its libraries, each with its section. They
list the same frames as the others, or the files are refused as Ambiguous, Build or Mapping. Where `procbacktrace` passes a file as one of these,
it lists the first of these frames.
"""

import os
import re
import shutil
import subprocess

from kiblawen import common
from kiblawen.program import linked
from kiblawen.stopping import NO_CORE, compiled, in_words, listed, stopped

# The process has read the first LENGTH bytes of its C library, by a mapping a little lower than those of the library's segments.
READS_LIBRARY = """
#define _GNU_SOURCE
#include <dlfcn.h>
#include <fcntl.h>
#include <stdlib.h>
#include <sys/mman.h>
static int less(const void *a, const void *b) { __builtin_trap(); return a < b; }
int main(void)
{
    int numbers[8] = { 8, 7, 6, 5, 4, 3, 2, 1 };
    int file = open(LIBRARY, O_RDONLY);
    Dl_info loaded;
    dladdr((void *)qsort, &loaded);
    for (char *lower = (char *)loaded.dli_fbase - (LENGTH + 4095) / 4096 * 4096;; lower -= 4096) {
        void *found = mmap(lower, LENGTH, PROT_READ, MAP_PRIVATE, file, 0);
        if (found == lower)
            break;
        if (found == MAP_FAILED)
            return 1;
        munmap(found, LENGTH);
    }
    qsort(numbers, 8, sizeof *numbers, less);
    return numbers[0];
}
"""
# Calls one library through the other. FIRST and SECOND are their names.
CALLS = """
#include <dlfcn.h>
static int (*second)(int (*)(void));
static int stop(void) { __builtin_trap(); }
static int between(void) { return second(stop) + 1; }
int main(void)
{
    int (*first)(int (*)(void)) = (int (*)(int (*)(void)))dlsym(dlopen(FIRST, RTLD_NOW), "go");
    second = (int (*)(int (*)(void)))dlsym(dlopen(SECOND, RTLD_NOW), "go");
    return first(between) + 1;
}
"""
# Two of these differ in the size of their frame alone.
GO = """
int go(int (*f)(void)) { volatile char room[ROOM]; room[0] = 1; room[ROOM - 1] = 1; return f() + room[0]; }
"""
REFUSED = re.compile(r"refused \d+ module (Ambiguous|Build|Mapping)$")
PASSED = re.compile(r"(?:passed .+: module (?:Ambiguous|Build|Mapping)\n?)+")


def quoted(name, path):
    return f'-D{name}="{path}"'


def with_section(tool, path, folder):
    """A copy of a file in a folder, with its section."""
    os.makedirs(folder, exist_ok=True)
    copy = os.path.join(folder, os.path.basename(path))
    section = copy + ".sframe"
    at, said = linked(tool, path, section)
    if at is None:
        raise ValueError(f"{path}: {said}")
    loaded = ["--set-section-flags", ".sframe=alloc,readonly,data", "--change-section-address", f".sframe={at:#x}"]
    common.output("objcopy", "--add-section", f".sframe={section}", *loaded, path, copy)
    return copy


def begin(ours, threads):
    """Whether each thread's frames are the first ones of the others'."""
    return ours.keys() == threads.keys() and all(walk == threads[thread][: len(walk)] for thread, walk in ours.items())


def compare_walks(found, tool, command, name, process, files):
    words = [tool, command, process.core, "64", *files]
    ran = subprocess.run(words, stdin=subprocess.DEVNULL, capture_output=True, timeout=common.SECONDS, check=False)
    said = ran.stderr.decode(errors="replace").strip()
    ours = listed(ran.stdout.decode())
    if ran.returncode == 5 and REFUSED.match(said):
        found.count("processes whose files are refused")
    elif ran.returncode != 0:
        found.differs(f"{name}: {command} ends with status {ran.returncode}, {said}")
    else:
        has_passed = PASSED.fullmatch(said)
        if has_passed:
            found.count("processes whose files are passed")
        for peer, threads in process.peers().items():
            found.count(f"frames of processes by {peer}", sum(map(len, threads.values())))
            if not threads or not (begin(ours, threads) if has_passed else ours == threads):
                found.differs(f"{name}: {command} has {in_words(ours)}, and {peer} shows {in_words(threads)}")


def compare(found, tool, name, process, files):
    # `procbacktrace` has no use for the sections.
    for command in "procwalk", "procbacktrace":
        compare_walks(found, tool, command, name, process, files)


def reads_library(found, tool, room, library):
    for name, length in ("a page", 4096), ("the whole file", os.path.getsize(library)):
        program = os.path.join(room, "reads", "reads")
        if not compiled(READS_LIBRARY, program, quoted("LIBRARY", library), f"-DLENGTH={length}"):
            return "the C compiler makes no program"
        process = stopped(program + ".core", program)
        if process is None:
            return NO_CORE
        files = [with_section(tool, it, os.path.join(room, "reads", "with")) for it in (program, library)]
        compare(found, tool, f"a library of which {name} was mapped as data as well", process, files)
    return None


def alike_names(found, tool, room, library):
    place = os.path.join(room, "alike")
    program, one, two = (os.path.join(place, it) for it in ("calls", "one/util.so", "two/util.so"))
    made = [compiled(GO, path, "-shared", "-fPIC", f"-DROOM={size}") for path, size in ((one, 1000), (two, 328))]
    if not all(made + [compiled(CALLS, program, quoted("FIRST", one), quoted("SECOND", two))]):
        return "the C compiler makes no library"
    process = stopped(program + ".core", program)
    if process is None:
        return NO_CORE
    # Below the folders of their names, and of others.
    for names in ("one", "two"), ("former", "latter"):
        folder = os.path.join(place, "with")
        others = [with_section(tool, it, folder) for it in (program, library)]
        libraries = [with_section(tool, path, os.path.join(folder, name)) for path, name in zip((one, two), names)]
        for order in libraries, libraries[::-1]:
            shown = " ".join(os.path.relpath(it, folder) for it in order)
            compare(found, tool, f"two libraries of one name: {shown}", process, others + order)
    return None


def another_build(found, tool, room, library):
    place = os.path.join(room, "build")
    program, ran, later = (os.path.join(place, it) for it in ("calls", "ran/libgo.so", "later/libgo.so"))
    made = [compiled(GO, path, "-shared", "-fPIC", f"-DROOM={size}") for path, size in ((ran, 1000), (later, 1016))]
    if not all(made + [compiled(CALLS, program, quoted("FIRST", ran), quoted("SECOND", ran))]):
        return "the C compiler makes no library"
    process = stopped(program + ".core", program)
    if process is None:
        return NO_CORE
    folder = os.path.join(place, "with")
    others = [with_section(tool, it, folder) for it in (program, library)]
    for name, path in ("the build that ran", ran), ("another build of a library", later):
        compare(found, tool, name, process, others + [with_section(tool, path, os.path.join(folder, os.path.basename(os.path.dirname(path))))])
    return None


def compare_processes(found, tool, room):
    missing = [it for it in ("cc", "gdb", "objcopy") if not shutil.which(it)]
    if missing:
        found.passed_over.append(f"processes: there is no {missing[0]}")
        return
    library = os.path.realpath((common.output("cc", "-print-file-name=libc.so.6") or "").strip())
    for make in reads_library, alike_names, another_build:
        why = make(found, tool, os.path.realpath(room), library)
        if why:
            found.passed_over.append(f"processes, {make.__name__.replace('_', ' ')}: {why}")
