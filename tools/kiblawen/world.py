"""Compares the program with other tools on this machine, on real files.

    ./x world                        programs and libraries of the machine, and freshly compiled objects
    ./x world --small                a few of them, in some seconds: what `./x gate` does
    ./x world --tool PROGRAM FILE .. another program; these files (or all below a folder) in place of the machine's

What is compared:

- rows: the section of each file with what `readelf --debug-dump=frames-interp` shows for its records: for each function of each record,
  whether it is kept, the canonical frame address, the return address and the frame pointer at each offset, or the offset of the first
  row that SFrame cannot express;
- sections: functions and rows with what `objdump --sframe` shows for the same section, if this objdump reads this version;
- versions: what `readelf --sframe` prints of a section and of the Version 3 section that `upgrade` makes of it, if this readelf is of GNU
  binutils from 2.46 on; with --binutils FOLDER, which has such readelf, objdump, as and ld, or scripts that run them, also what this objdump
  prints, and what as and ld write for C files (versions.py);
- assembled sections: with the `.sframe` that `as --gsframe` writes, if this assembler writes this version;
- walks: the program counters of a core file's thread with those that gdb and eu-stack show, if available;
- processes: the program counters from `procwalk` and `procbacktrace` with those of gdb and eu-stack, if a file was also mapped as data, two files
  have one name, or one is another build (processes.py);
- whole processes: those from `procbacktrace` through a handler of a signal, an exception, a panic, the threads of Python, and git (stacks.py).

A comparison that this machine cannot make is named, with the reason. Each difference has a line; the status is 1 if there is one. A walk that
ends before that of eu-stack has a line with the cause.
"""

import concurrent.futures
import os
import re
import shutil
import subprocess
import tempfile

from kiblawen import common, elf, processes, program, stacks, versions

# The registers of the two machines, as readelf names them, and the return address column.
STACK, FRAME, COLUMN = {"amd64": "rsp", "aarch64": "sp"}, {"amd64": "rbp", "aarch64": "x29"}, {"amd64": 16, "aarch64": 30}
RECORD = re.compile(r"^([0-9a-f]{8,}) [0-9a-f]+ [0-9a-f]+ (?:CIE \"([^\"]*)\".* ra=(\d+)|FDE cie=([0-9a-f]+) pc=([0-9a-f]+)\.\.([0-9a-f]+))")
# Files of which both versions of the table are compared.
LARGE = ["/usr/lib/x86_64-linux-gnu/" + name for name in ("libc.so.6", "libstdc++.so.6", "libcrypto.so.3")] + ["/usr/bin/python3.11"]
SMALL = ["/bin/sh", "/lib/x86_64-linux-gnu/libc.so.6", "/lib/x86_64-linux-gnu/libgcc_s.so.1"]
SOURCE = """
extern int g(int);
int leaf(int x) { return x + 1; }
int saves(int n) { volatile char bytes[n + 1]; bytes[n] = g(n); return bytes[0]; }
int calls(int n) { return g(n) + leaf(n); }
int many(int a, int b, int c, int d) { return g(a) + g(b) + g(c) + g(d); }
"""
SOURCE_CXX = """
struct Held { ~Held(); };
int g(int);
int caught(int n) { Held held; try { return g(n); } catch (int &x) { return x; } }
"""
DEEP = """
#include <stdlib.h>
int sum;
__attribute__((noinline)) int deep(int n) { volatile char bytes[n + 1]; bytes[n] = 1; if (n == 0) abort(); sum += deep(n - 1); return bytes[n]; }
int main(void) { return deep(5); }
"""


class Found:
    """What was compared, the differences, and the walks that end before another's."""

    def __init__(self):
        self.counts, self.differences, self.passed_over, self.fewer = {}, [], [], []

    def count(self, what, number=1):
        self.counts[what] = self.counts.get(what, 0) + number

    def differs(self, text):
        self.differences.append(text)

    def add(self, other):
        for what, number in other.counts.items():
            self.count(what, number)
        self.differences += other.differences
        self.passed_over += other.passed_over


# ---- rows, by readelf
def saved(text):
    """The offset of a cell such as `c-16`."""
    return int(text[1:]) if re.fullmatch(r"c[+-]\d+", text) else None


def offset_of(number):
    return f"{number:+d}"


def content(arch, cells):
    """What SFrame can say of a row that readelf shows, as the program prints it; or none."""
    base, sign, number = re.fullmatch(r"(\w+?)(?:([+-])(\d+))?", cells["CFA"]).groups()
    names = {STACK[arch]: "sp", FRAME[arch]: "fp"}
    if base not in names or sign is None or not -(2**31) <= int(sign + number) < 2**31:
        return None
    if cells.get(STACK[arch], "u") not in ("u", "v+0"):
        return None
    said = [f"cfa={names[base]}{sign}{number}"]
    ra, fp = cells.get("ra", "u"), cells.get(FRAME[arch], "u")
    if arch == "amd64":
        if ra != "c-8":
            return None
    elif saved(ra) is not None:
        said.append(f"ra=c{offset_of(saved(ra))}")
    elif ra not in ("u", "s"):
        return None
    if saved(fp) is not None:
        if arch == "aarch64" and saved(ra) is None:
            return None
        said.append(f"fp=c{offset_of(saved(fp))}")
    elif fp not in ("u", "s"):
        return None
    return " ".join(said)


def tables(text):
    """The records that readelf shows: for each function start, size, augmentation, return column and rows; a record without rows of its
    own has those of its common record."""
    commons, found, rows, header = {}, [], None, None
    for line in text.splitlines():
        record = RECORD.match(line)
        if record:
            rows, header = [], None
            if record[2] is not None:
                commons[record[1]] = (record[2], int(record[3]), rows)
            else:
                start = int(record[5], 16)
                found.append((start, int(record[6], 16) - start, commons[record[4].zfill(len(record[1]))], rows))
        elif rows is not None and line.split()[:2] == ["LOC", "CFA"]:
            header = line.split()[1:]
        elif rows is not None and header and re.match(r"^[0-9a-f]{16} ", line):
            # A register's cell may be two words, as in `r10 (r10)`.
            words = re.sub(r"(r\d+) \(\w+\)", r"\1", line).split()
            rows.append((int(words[0], 16), dict(zip(header, words[1:]))))
    return found


def expected(arch, start, size, common_record, rows):
    """The rows of a function that can be kept; or the first offset at which it cannot, none for the function as a whole."""
    augmentation, column, initial = common_record
    if size == 0 or size >= 2**32 or column != COLUMN[arch] or "S" in augmentation:
        return None, None
    rows = [(at - start, cells) for at, cells in rows] or [(0, cells) for _, cells in initial[:1]] or [(0, {"CFA": "none"})]
    said = []
    for number, (at, cells) in enumerate(rows):
        if at >= size or (number + 1 < len(rows) and rows[number + 1][0] == at):
            continue
        now = content(arch, cells)
        if now is None:
            return None, at
        if not said or said[-1][1] != now:
            said.append((at, now))
    return said, None


def unsigned(rows):
    """Rows without the mark of a signed return address, which readelf does not show."""
    found = []
    for at, now in rows:
        now = now[: -len(" signed")] if now.endswith(" signed") else now
        if not found or found[-1][1] != now:
            found.append((at, now))
    return found


def compare_rows(tool, path):
    found, arch = Found(), elf.machine(path)
    shown = common.output("readelf", "--debug-dump=frames-interp", path, status=(0, 1))
    with tempfile.TemporaryDirectory(prefix="world-") as room:
        section = os.path.join(room, "sframe")
        at, said = program.linked(tool, path, section)
        if at is None:
            found.count("files that are refused")
            found.passed_over.append(f"{path}: {said}")
            return found
        omitted, _ = program.report(said)
        kept = program.functions(tool, section, at)
        compare_objdump(found, path, section, at, kept)
    # Two records may have one start: those of nonzero size come last.
    for start, size, common_record, rows in tables((shown or "").split("Contents of the .debug_frame")[0]):
        wanted, reason_at = expected(arch, start, size, common_record, rows)
        found.count("functions by readelf")
        if wanted is not None:
            found.count("rows by readelf", len(wanted))
            is_there = start in kept and kept[start][0] == size
            if not is_there and start in omitted and omitted[start].reason in ("FpRule", "SpRule", "SignState"):
                found.count("omitted for a rule that readelf does not show")
            elif not is_there:
                found.differs(f"{path}: {start:#x} is not kept, and readelf shows rows that can be")
            elif unsigned(kept[start][1]) != wanted:
                found.differs(f"{path}: {start:#x} has the rows {unsigned(kept[start][1])}, and readelf shows {wanted}")
        elif start not in omitted or omitted[start].size != size:
            found.differs(f"{path}: {start:#x} is not omitted, and readelf shows a row that cannot be said, at {reason_at}")
        elif reason_at is not None and omitted[start].at is not None and omitted[start].at > reason_at:
            found.differs(f"{path}: {start:#x} is omitted at {omitted[start].at}, and readelf shows the first such row at {reason_at}")
    found.count("files by readelf")
    return found


# ---- sections, by objdump
def compare_objdump(found, path, section, at, kept):
    if not OBJDUMP:
        return
    with tempfile.TemporaryDirectory(prefix="world-") as room:
        carrier = os.path.join(room, "with")
        common.output("objcopy", "--add-section", f".sframe={section}", "--change-section-address", f".sframe={at:#x}", path, carrier)
        shown = common.output("objdump", "--sframe=.sframe", carrier) or ""
    listed = {int(it[1], 16): int(it[2]) for it in re.finditer(r"func idx \[\d+\]: pc = (0x\w+), size = (\d+) bytes", shown)}
    found.count("functions by objdump", len(listed))
    if listed != {start: size for start, (size, _) in kept.items()}:
        found.differs(f"{path}: objdump lists other functions")


def objdump_reads(tool, room):
    """Whether the objdump at hand reads sections of this version: tried on the section of a made object."""
    source, object_file, section = (os.path.join(room, it) for it in ("try.s", "try.o", "try.sframe"))
    with open(source, "w", encoding="utf-8") as file:
        file.write("f:\n .cfi_startproc\n ret\n .cfi_endproc\n")
    if common.output("as", "--64", "-o", object_file, source) is None or program.linked(tool, object_file, section)[0] is None:
        return False
    common.output("objcopy", "--add-section", f".sframe={section}", object_file)
    return "func idx" in (common.output("objdump", "--sframe=.sframe", object_file) or "")


# ---- assembled sections, by as
def compare_assembled(found, tool, room):
    source, object_file, section = (os.path.join(room, it) for it in ("as.s", "as.o", "as.sframe"))
    with open(source, "w", encoding="utf-8") as file:
        file.write("f:\n .cfi_startproc\n push %rbp\n .cfi_def_cfa_offset 16\n .cfi_offset 6, -16\n pop %rbp\n .cfi_def_cfa_offset 8\n ret\n .cfi_endproc\n")
    if common.output("as", "--64", "--gsframe", "-o", object_file, source) is None:
        found.passed_over.append("assembled sections: the assembler at hand does not write them")
        return
    common.output("objcopy", "--dump-section", f".sframe={section}", object_file, os.devnull)
    with open(section, "rb") as file:
        version = file.read(3)[2]
    if version != 2:
        found.passed_over.append(f"assembled sections: the assembler at hand writes Version {version}, and this is Version 2")
        return
    found.count("assembled sections")
    if common.output(tool, "dump", f"{section}@0x0") is None:
        found.differs("the section that as writes is refused")


# ---- walks, by gdb and eu-stack
def compare_walks(found, tool, room):
    if not shutil.which("gdb"):
        found.passed_over.append("walks: there is no gdb")
        return
    source, deep, core = (os.path.join(room, it) for it in ("deep.c", "deep", "core"))
    with open(source, "w", encoding="utf-8") as file:
        file.write(DEEP)
    if common.output("cc", "-O1", "-static", "-no-pie", "-o", deep, source) is None:
        found.passed_over.append("walks: there is no C compiler with a static C library")
        return
    shown = common.output("gdb", "-nx", "-batch", "-ex", "set confirm off", "-ex", "run", "-ex", f"generate-core-file {core}", "-ex", "backtrace", deep) or ""
    if not os.path.exists(core):
        found.passed_over.append("walks: gdb makes no core file here")
        return
    at = elf.page_after(deep)
    said = common.output(tool, "backtrace", f"{deep}.sframe@{at:#x}", core, "64", f"{deep}@0x0") or ""
    ours = [int(it, 16) for it in re.findall(r"#\d+ pc (0x\w+)", said)]
    by_gdb = [int(it, 16) for it in re.findall(r"^#\d+ +(0x\w+) in", shown, re.MULTILINE)]
    peers = [("gdb", by_gdb)]
    if shutil.which("eu-stack"):
        peers.append(("eu-stack", [int(it, 16) for it in re.findall(r"^#\d+ +(0x\w+)", common.output("eu-stack", "--core", core, "-e", deep) or "", re.MULTILINE)]))
    for name, frames in peers:
        found.count(f"frames by {name}", len(frames))
        if not frames or ours[: len(frames)] != frames:
            found.differs(f"the walk of {deep} has {[hex(it) for it in ours]}, and {name} shows {[hex(it) for it in frames]}")


# ---- freshly compiled objects
def compiled(room):
    """Objects of each compiler at hand, with all functions in one section of code."""
    made = []
    for command, language, options in (
        ("gcc", "c", ["-O0"]), ("gcc", "c", ["-O2"]), ("gcc", "c++", ["-O1"]),
        ("clang", "c", ["-O0"]), ("clang", "c", ["-O2"]), ("clang", "c", ["-O1", "--target=aarch64-linux-gnu"]),
        ("clang", "c", ["-O1", "--target=aarch64-linux-gnu", "-mbranch-protection=pac-ret+leaf"]),
        ("aarch64-linux-gnu-gcc", "c", ["-O2"]),
    ):
        if not shutil.which(command):
            continue
        path = os.path.join(room, f"made-{len(made)}.o")
        words = [command, "-x", language, *options, "-fasynchronous-unwind-tables", "-c", "-o", path, "-"]
        ran = subprocess.run(words, input=(SOURCE if language == "c" else SOURCE_CXX).encode(), capture_output=True, check=False)
        if ran.returncode == 0:
            made.append(path)
    return made


OBJDUMP = False


def main(words):
    global OBJDUMP
    parser = common.parser(__name__, __doc__)
    program.add_option(parser)
    parser.add_argument("--small", action="store_true")
    parser.add_argument("--binutils", metavar="FOLDER", type=os.path.abspath, help="with readelf, objdump, as and ld of GNU binutils from 2.46 on")
    parser.add_argument("files", nargs="*", metavar="FILE")
    given = parser.parse_args(words)
    tool, found = program.find(__name__, given.tool), Found()
    folders = given.files or (SMALL if given.small else ["/usr/bin", "/usr/sbin", "/usr/lib/x86_64-linux-gnu", "/usr/lib/aarch64-linux-gnu"])
    with tempfile.TemporaryDirectory(prefix="world-") as room:
        OBJDUMP = objdump_reads(tool, room)
        if not OBJDUMP:
            found.passed_over.append("sections: the objdump at hand does not read this version")
        # An object's sections have the addresses of readelf only where the code is laid out first, as in the ones that are compiled here.
        paths = [it for it in elf.files_below(it for it in folders if os.path.exists(it)) if given.files or not elf.is_object(it)]
        paths += [] if given.files else compiled(room)
        with concurrent.futures.ProcessPoolExecutor(os.cpu_count()) as workers:
            for one in workers.map(compare_rows, [tool] * len(paths), paths):
                found.add(one)
        large = [it for it in LARGE[: 1 if given.small else None] if os.path.exists(it)]
        versions.compare_versions(found, tool, room, given.binutils, paths if given.files else large)
        if not given.files:
            compare_assembled(found, tool, room)
            compare_walks(found, tool, room)
            processes.compare_processes(found, tool, room)
            stacks.compare_stacks(found, tool, room)
    for what, number in sorted(found.counts.items()):
        print(f"{number:>10} {what}")
    for line in found.passed_over:
        print(f"not compared: {line}")
    for line in found.fewer:
        print(f"fewer frames: {line}")
    for line in found.differences[:100]:
        print(f"DIFFERS {line}")
    print(f"{len(found.differences)} differences")
    return 1 if found.differences or not found.counts else 0
