"""Compares what a readelf of GNU binutils from 2.46 on prints of a section and of the Version 3 section that `upgrade` makes of it; and, if a
folder with its as, ld and objdump is given, the Version 3 sections that these make of C files with those of `linkplt` and `upgrade`."""

import glob
import os
import re
import struct
import subprocess

from kiblawen import cases, common, elf, program

FUNCTION = re.compile(r"func idx \[\d+\]: pc = (0x\w+), size = (\d+) bytes")
ROW = re.compile(r" +[0-9a-f]{8,}  .*\S")
# The magic and the version of a section of Version 2, and its ABI for AArch64.
VERSION_2, AARCH64 = b"\xe2\xde\x02", b"\x02"
# The C files that an assembler and a linker are tried with, and how many.
SOURCES, MOST_SOURCES = ("/usr/share/doc/*/examples/*.c", common.at_top("example", "*.c")), 24
# The names of the two sections of an object that carries a table.
NAMES = b"\0.sframe\0.names\0"


def carrier(path, section, at, machine):
    """Writes an object that has a section at an address, as a linked file has it."""
    with open(section, "rb") as file:
        table = file.read()
    start = 64 + len(table) + len(NAMES)
    number = next(it for it, name in elf.MACHINES.items() if name == machine)
    head = b"\x7fELF\x02\x01\x01".ljust(16, b"\0") + struct.pack("<HHIQQQIHHHHHH", elf.ET_REL, number, 1, 0, 0, start, 0, 64, 0, 0, 64, 3, 2)
    headers = bytes(64) + struct.pack("<IIQQQQIIQQ", 1, elf.SHT_GNU_SFRAME, elf.SHF_ALLOC, at, 64, len(table), 0, 0, 8, 0)
    headers += struct.pack("<IIQQQQIIQQ", 9, elf.SHT_STRTAB, 0, 0, 64 + len(table), len(NAMES), 0, 0, 1, 0)
    with open(path, "wb") as file:
        file.write(head + table + NAMES + headers)


def shown(readelf, room, section, at, machine, option="--sframe"):
    """The functions with rows that readelf prints of a section, each with its rows, by start; and the version that it names."""
    path = os.path.join(room, "carrier.o")
    carrier(path, section, at, machine)
    ran = subprocess.run([*readelf, option, path], capture_output=True, timeout=common.SECONDS, check=False)
    functions, version = [], None
    for line in ran.stdout.decode(errors="replace").splitlines():
        found = FUNCTION.search(line)
        if found:
            functions.append((int(found[1], 16), int(found[2]), []))
        elif functions and ROW.fullmatch(line.rstrip()):
            functions[-1][2].append(" ".join(line.split()))
        elif "SFRAME_VERSION_" in line:
            version = line.split("SFRAME_VERSION_")[1].strip()
    return sorted(it for it in functions if it[1] and it[2]), version


class Versions:
    """Both versions of sections, as readelf prints them."""

    def __init__(self, found, tool, room, readelf):
        self.found, self.tool, self.room, self.readelf = found, tool, room, [readelf]
        # Whether this readelf reads Version 3, once it is known.
        self.is_read = None

    def compare(self, name, section, at, machine):
        """Compares a section with its Version 3 one, if it can be upgraded."""
        upgraded = os.path.join(self.room, "upgraded")
        if self.is_read is False or common.output(self.tool, "upgrade", f"{upgraded}@{at:#x}", f"{section}@{at:#x}") is None:
            return
        one, _ = shown(self.readelf, self.room, section, at, machine)
        other, version = shown(self.readelf, self.room, upgraded, at, machine)
        self.is_read = self.is_read or version == "3"
        if not self.is_read:
            self.found.passed_over.append(f"versions: {self.readelf[0]} does not read Version 3, as GNU binutils from 2.46 on do")
            return
        self.found.count("sections of both versions by readelf")
        self.found.count("functions of both versions by readelf", len(one))
        self.found.count("rows of both versions by readelf", sum(len(rows) for _, _, rows in one))
        if one != other:
            self.found.differs(f"{name}: readelf prints other functions or rows of its Version 3 section")

    def compare_files(self, paths):
        """Compares the tables of files."""
        table = os.path.join(self.room, "table")
        for path in paths:
            at, _ = program.linked(self.tool, path, table, "linkplt")
            if at is not None:
                self.compare(path, table, at, elf.machine(path))

    def compare_objdump(self, objdump, path):
        """Compares what objdump and readelf print of the Version 3 section of a file's table."""
        table, upgraded = os.path.join(self.room, "table"), os.path.join(self.room, "upgraded")
        at, _ = program.linked(self.tool, path, table, "linkplt")
        if at is None or common.output(self.tool, "upgrade", f"{upgraded}@{at:#x}", f"{table}@{at:#x}") is None:
            return
        one, _ = shown(self.readelf, self.room, upgraded, at, elf.machine(path))
        other, _ = shown([objdump], self.room, upgraded, at, elf.machine(path), "--sframe=.sframe")
        self.found.count("functions of Version 3 by objdump", len(other))
        if one != other:
            self.found.differs(f"{path}: objdump prints other functions or rows of its Version 3 section than readelf")

    def compare_linked(self, binutils, source):
        """Compares the section that an assembler and a linker make of a C file with the one that `linkplt` and `upgrade` make of the linked
        file. The row that ld 2.47 writes for a `.plt.got` is wrong by its own `.eh_frame`, and counted apart. Returns whether there was one."""
        path, theirs, table, ours = (os.path.join(self.room, name) for name in ("linked", "theirs", "table", "ours"))
        words = ["gcc", "-O2", "-w", f"-B{binutils}/", "-Wa,--gsframe", "-shared", "-fPIC", "-I", common.at_top("include"), "-o", path, source]
        if subprocess.run(words, capture_output=True, timeout=common.SECONDS, check=False).returncode:
            return False
        with open(path, "rb") as file:
            found = {it.name: it for it in elf.sections(file)}
            section, stubs = found.get(".sframe"), found.get(".plt.got")
            if not section:
                return False
            with open(theirs, "wb") as to:
                to.write(elf.read_at(file, section.offset, section.size))
        at, _ = program.linked(self.tool, path, table, "linkplt")
        common.output(self.tool, "upgrade", f"{ours}@{at:#x}", f"{table}@{at:#x}")
        one, _ = shown(self.readelf, self.room, theirs, section.start, "amd64")
        other, _ = shown(self.readelf, self.room, ours, at, "amd64")
        self.found.count("functions of Version 3 by as and ld", len(one))
        for start in sorted({it[0] for it in set(map(repr_of, one)) ^ set(map(repr_of, other))}):
            if stubs and stubs.start <= start < stubs.start + stubs.size:
                self.found.count("rows of a .plt.got that ld writes wrongly")
            else:
                self.found.differs(f"{source}: as and ld write other rows of the function at {start:#x} than `linkplt` and `upgrade`")
        return True

    def compare_cases(self):
        """Compares the sections of cases/, at 0x3000."""
        section, seen = os.path.join(self.room, "section"), set()
        for path in cases.all_paths():
            for name, content in cases.Reader(path).bytes.items():
                if not content.startswith(VERSION_2) or content in seen:
                    continue
                seen.add(content)
                with open(section, "wb") as file:
                    file.write(content)
                self.compare(name, section, 0x3000, "aarch64" if content[4:5] == AARCH64 else "amd64")


def repr_of(function):
    """A function with its rows, as a member of a set."""
    start, size, rows = function
    return start, size, tuple(rows)


def compare_versions(found, tool, room, binutils, paths):
    """Compares both versions of the sections of cases/ and of the tables of these files, by the tools of a folder if one is given."""
    versions = Versions(found, tool, room, os.path.join(binutils, "readelf") if binutils else "readelf")
    versions.compare_cases()
    versions.compare_files(paths)
    if not binutils:
        return
    for path in paths:
        versions.compare_objdump(os.path.join(binutils, "objdump"), path)
    sources, tried = [it for pattern in SOURCES for it in sorted(glob.glob(pattern))], 0
    for source in sources:
        tried += tried < MOST_SOURCES and versions.compare_linked(binutils, source)
    found.count("C files by as and ld", tried)
