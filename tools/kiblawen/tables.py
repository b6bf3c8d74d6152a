"""Makes the table of a finished ELF file, and puts it into that file, or into a store by build identifier."""

import collections
import filecmp
import os
import shutil
import struct
import subprocess
import tempfile

from kiblawen import common, elf, program, replacing

SECTION = ".sframe"
# The first bytes of a table. The number of its version is after them.
MAGIC = b"\xe2\xde"
CHUNK = 1 << 20
# The status of `sf_tool` for a file that it can't link: malformed or out of reach, and past a limit.
REFUSALS = ("status 5:", "status 7:")

# What was made: the functions kept, those omitted by reason, and the bytes of the table and of the file before and after.
Table = collections.namedtuple("Table", "kept reasons size before after")


class Stop(Exception):
    """Why a file gets no table now: `had`, `other`, `debug`, `empty`, `refused` or `failed`, and the words for it."""

    def __init__(self, state, why=""):
        super().__init__(why)
        self.state, self.why = state, why


def run(*words):
    """Runs a command that has to end with status 0."""
    try:
        ran = subprocess.run(words, stdin=subprocess.DEVNULL, capture_output=True, timeout=common.SECONDS, check=False)
    except subprocess.TimeoutExpired:
        raise Stop("failed", f"{words[0]} had not ended after {common.SECONDS} seconds") from None
    if ran.returncode:
        said = " ".join((ran.stderr or ran.stdout).decode(errors="replace").split())
        raise Stop("failed", f"{os.path.basename(words[0])}: status {ran.returncode} {said}")


def make(tool, command, path, out):
    """Makes the table of a file. Returns AT, how many functions were kept, and those omitted by reason."""
    at, said = program.linked(tool, path, out, command)
    if at is None:
        raise Stop("refused" if said.startswith(REFUSALS) else "failed", said)
    omitted, kept = program.report(said)
    if not kept:
        raise Stop("empty")
    return at, kept, collections.Counter(it.reason for it in omitted.values())


def verify(given, table, at, path):
    """Compares a table of Version 2 with the call frame information of a file."""
    run(given.tool, "verify", f"{table}@{at:#x}", f"{path}@{elf.BASE:#x}")


def of_version(given, table, at, path):
    """The table of the version that is asked for, made of a table of Version 2 that is compared with the file."""
    verify(given, table, at, path)
    if given.version == 2:
        return table
    upgraded = f"{table}.3"
    run(given.tool, "upgrade", f"{upgraded}@{at:#x}", f"{table}@{at:#x}")
    return upgraded


def mark(path):
    """Gives the table of a file the section type by which readers of Version 3 find it."""
    with open(path, "r+b") as file:
        file.seek(elf.place_of_section_header(file, SECTION) + 4)
        file.write(struct.pack("<I", elf.SHT_GNU_SFRAME))


def same(one, start, other, other_start, length):
    """Whether two open files have the same bytes at these places."""
    one.seek(start)
    other.seek(other_start)
    while length:
        step = min(length, CHUNK)
        read = one.read(step)
        if len(read) < step or read != other.read(step):
            return False
        length -= step
    return True


def compare_headers(old, new):
    """Checks that two open files have the same ELF header, apart from its fields of section headers, and the same program headers, apart
    from offsets in the file. objcopy leaves out bytes between segments."""
    one, other = ([it._replace(offset=it.offset % max(it.alignment, 1)) for it in elf.program_headers(file)] for file in (old, new))
    if one != other or not same(old, 0, new, 0, 40) or not same(old, 48, new, 48, 12):
        raise Stop("refused", "objcopy changes its headers")


def compare_images(old, new):
    """Checks that two open files have the same bytes in their segments, apart from the headers, which have to be the same already."""
    place, entry, count = elf.table_of_segments(old)
    parts = collections.defaultdict(list)
    for one, other in zip(elf.program_headers(old), elf.program_headers(new)):
        start, end = one.offset, one.offset + one.length
        parts[other.offset - start] += [(max(start, 64), min(end, place)), (max(start, 64, place + entry * count), end)]
    for moved, ranges in parts.items():
        for first, last in joined(ranges):
            if not same(old, first, new, first + moved, last - first):
                raise Stop("refused", "objcopy changes what is loaded of it")


def joined(ranges):
    """What these ranges cover, each byte once, in order."""
    covered = 0
    for first, last in sorted(ranges):
        first = max(first, covered)
        if first < last:
            yield first, last
            covered = last


def compared(file):
    """The sections of an open file apart from the table, and from symbols and names, which objcopy writes anew."""
    return [it for it in elf.sections(file) if it.name != SECTION and it.kind not in (elf.SHT_SYMTAB, elf.SHT_STRTAB)]


def compare_sections(old, new):
    """Checks that two open files have the same sections."""
    one, other = compared(old), compared(new)
    for it, there in zip(one, other):
        alike = it._replace(offset=0) == there._replace(offset=0)
        if not alike or it.kind != elf.SHT_NOBITS and not same(old, it.offset, new, there.offset, it.size):
            raise Stop("refused", f"objcopy changes its section {it.name}")
    if len(one) != len(other):
        raise Stop("refused", "objcopy changes how many sections it has")


def table_in(sections):
    """The section that is a file's table, or none."""
    return next((it for it in sections if it.name == SECTION), None)


def is_debug(sections):
    """Whether a file is debug-only: its call frame information has no bytes."""
    return any(it.name == ".eh_frame" and it.kind == elf.SHT_NOBITS for it in sections)


def version_of(content):
    """The version of a table by its first bytes, or none if it is no table."""
    return content[2] if content[:2] == MAGIC and len(content) > 2 else None


def check_version(content, wanted):
    """Stops with what is said of a file that has this table already, where one of the version `wanted` is asked for."""
    version = version_of(content)
    if version is None:
        raise Stop("refused", f"its {SECTION} is no SFrame section")
    raise Stop("had") if version == wanted else Stop("other", f"its table has Version {version}")


def look(file, given):
    """Checks that an open file can have a table added."""
    sections, size = elf.sections(file), os.fstat(file.fileno()).st_size
    if is_debug(sections):
        raise Stop("debug")
    found = table_in(sections)
    if found and not given.again:
        check_version(elf.read_at(file, found.offset, 3), given.version)
    if found and any(kind == elf.PT_LOAD and start <= found.start < start + size for kind, _, start, _, size in elf.segments(file)):
        raise Stop("refused", f"its linker has put {SECTION} into a loaded segment")
    if elf.end(file, sections) < size:
        raise Stop("refused", "data is appended to it, which objcopy would drop")
    if sum(it.size for it in sections if it.kind != elf.SHT_NOBITS) > size:
        raise Stop("refused", "its sections overlap, which objcopy would write apart")


def read_back(path, at, table, back):
    """Writes the table of a file to a file of its own, and checks that it is this table and how it is marked."""
    with open(path, "rb") as file:
        found = table_in(elf.sections(file))
        if not found or found.start != at or found.flags != elf.SHF_ALLOC:
            raise Stop("failed", f"{SECTION} is not marked as loaded at {at:#x}")
        file.seek(found.offset)
        content = file.read(found.size)
    with open(back, "wb") as file:
        file.write(content)
    if not filecmp.cmp(table, back, shallow=False):
        raise Stop("failed", f"{SECTION} is not the table that was added")


def into_file(given, found):
    """Adds the table of a file to it."""
    with replacing.opened(found) as original, tempfile.TemporaryDirectory(prefix=replacing.ROOM) as room:
        look(original.file, given)
        if original.before.st_nlink != len(found.names):
            raise Stop("refused", f"{original.before.st_nlink} hard links name it, and {len(found.names)} of them were found")
        old, table, new, back = (os.path.join(room, name) for name in ("old", "table", "new", "back"))
        original.copy(old)
        at, kept, reasons = make(given.tool, given.command, old, table)
        table = of_version(given, table, at, old)
        add_section(given, at, table, old, new)
        read_back(new, at, table, back)
        if given.version == 2:
            verify(given, back, at, new)
        original.replace(new)
        return Table(kept, reasons, os.path.getsize(back), original.before.st_size, os.path.getsize(new))


def add_section(given, at, table, old, new):
    """Has objcopy make a file with the table of another one, and checks that it changes nothing else."""
    flags = ["--set-section-flags", f"{SECTION}=alloc,readonly,data", "--change-section-address", f"{SECTION}={at:#x}"]
    run(given.objcopy, "--remove-section", SECTION, "--add-section", f"{SECTION}={table}", *flags, old, new)
    with open(old, "rb") as before, open(new, "rb") as changed:
        compare_headers(before, changed)
        compare_images(before, changed)
        compare_sections(before, changed)
    if given.version == 3:
        mark(new)


def place(store, file):
    """The name that the table of an open file has in a store."""
    found = elf.build_id_of(file)
    if not found or len(found) < 4:
        raise Stop("refused", "it has no build identifier")
    return os.path.join(store, found[:2], f"{found[2:]}.sframe")


def check_kept(given, table, old, room):
    """Stops with what is said of a file whose table a store has: another file may have claimed its build identifier."""
    kept, at = os.path.join(room, "kept"), elf.page_after(old)
    shutil.copyfile(table, kept)
    with open(kept, "rb") as file:
        version = version_of(file.read(3))
    if version not in (None, given.version):
        raise Stop("other", f"{table} has Version {version}")
    try:
        if given.version == 2:
            verify(given, kept, at, old)
        else:
            check_made_anew(given, kept, old, room)
    except Stop as stop:
        raise Stop("refused", f"{table} is the table of another file: {stop.why}") from None
    raise Stop("had")


def check_made_anew(given, kept, old, room):
    """Checks that a table of Version 3, which `sf_tool verify` doesn't read, has the bytes that are made of the file now."""
    anew = os.path.join(room, "anew")
    at, _, _ = make(given.tool, given.command, old, anew)
    if not filecmp.cmp(of_version(given, anew, at, old), kept, shallow=False):
        raise Stop("refused", "other bytes are made of it")


def into_store(given, found):
    """Puts the table of a file into a store."""
    with replacing.opened(found) as original, tempfile.TemporaryDirectory(prefix=replacing.ROOM) as room:
        if is_debug(elf.sections(original.file)):
            raise Stop("debug")
        to = place(given.into_store, original.file)
        old, table = os.path.join(room, "old"), os.path.join(room, "table")
        original.copy(old)
        if os.path.exists(to) and not given.again:
            check_kept(given, to, old, room)
        at, kept, reasons = make(given.tool, given.command, old, table)
        table = of_version(given, table, at, old)
        os.makedirs(os.path.dirname(to), exist_ok=True)
        replacing.put(table, to, 0o644)
        size, whole = os.path.getsize(table), original.before.st_size
        return Table(kept, reasons, size, whole, whole)


def from_store(given, found):
    """Where a store has the table of a file, as TABLE@AT."""
    with replacing.opened(found) as original, tempfile.TemporaryDirectory(prefix=replacing.ROOM) as room:
        table, old = place(given.from_store, original.file), os.path.join(room, "old")
        if not os.path.isfile(table):
            raise Stop("failed", f"{table} is not there")
        original.copy(old)
        try:
            check_kept(given, table, old, room)
        except Stop as stop:
            if stop.state != "had":
                raise
        return f"{table}@{elf.page_after(old):#x}"
