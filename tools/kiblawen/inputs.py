"""Inputs made to be slow, or to take much memory.

    python3 -m kiblawen.inputs NAME SIZE FOLDER   writes the files of an input into a folder, and prints the words of its command, one per line

A maker gets a size in bytes, and returns the words and the contents of the files by name. Together the files have about that size; what is said about
16 MiB holds for other sizes in proportion.
"""

import array
import os
import struct
import sys

SHT_PROGBITS, SHT_SYMTAB, SHT_STRTAB, SHT_RELA, SHT_GROUP, SHF_ALLOC = 1, 2, 3, 4, 17, 2
PT_LOAD, PT_NOTE, PN_XNUM = 1, 4, 0xFFFF
NT_PRSTATUS, NT_FILE, NT_GNU_BUILD_ID = 1, 0x46494C45, 3


class Object:
    """An object for AMD64. Several sections may have one body."""

    def __init__(self, names=b"\0.eh_frame\0"):
        self.places = {}
        self.bodies = bytearray(64)
        self.headers = [bytes(64)]
        self.section(SHT_STRTAB, self.body(names))

    def body(self, content):
        self.bodies += bytes(-len(self.bodies) % 8)
        place = len(self.bodies)
        self.bodies += content
        return place, len(content)

    def section(self, kind, body=(64, 0), name=0, flags=0, link=0, info=0, entry=0):
        self.headers.append(struct.pack("<IIQQQQIIQQ", name, kind, flags, 0, *body, link, info, 1, entry))
        return len(self.headers) - 1

    def eh_frame(self, body=(64, 0)):
        return self.section(SHT_PROGBITS, body, 1, SHF_ALLOC)

    def symbols(self, symbols, strings):
        return self.section(SHT_SYMTAB, self.body(symbols), link=strings, entry=24)

    def file(self):
        self.body(b"")
        count, place = len(self.headers), len(self.bodies)
        large = count >= 0xFF00
        if large:
            self.headers[0] = struct.pack("<IIQQQQIIQQ", 0, 0, 0, 0, 0, count, 0, 0, 0, 0)
        self.bodies[:64] = struct.pack("<4sBBB9xHHIQQQIHHHHHH", b"\x7fELF", 2, 1, 1, 1, 62, 1, 0, 0, place, 0, 64, 0, 0, 64, 0 if large else count, 1)
        return bytes(self.bodies) + b"".join(self.headers)


def link(content):
    return ["link", "OUT@0x50000000", "IN@0x40000000"], {"IN": content}


def link_bare(content):
    return ["link", "OUT@0x50000000", "eh-amd64:IN@0x40000000"], {"IN": content}


# ---- objects
def empty_sections(size):
    """Empty sections with call frame information."""
    it = Object()
    for _ in range(size // 64):
        it.eh_frame()
    return link(it.file())


def relocated_sections(size):
    """Empty sections with call frame information, each with a section of relocations."""
    it = Object()
    table = it.symbols(bytes(24), 1)
    for _ in range(size // 128):
        it.section(SHT_RELA, link=table, info=it.eh_frame(), entry=24)
    return link(it.file())


def section_names(size):
    """Sections with one long name."""
    it = Object(b"\0" + b"a" * (size // 2) + b"\0")
    for _ in range(size // 128):
        it.section(SHT_PROGBITS, name=1, flags=SHF_ALLOC)
    return link(it.file())


def relocations(size):
    """Relocations of one section, the last field first."""
    it = Object()
    table = it.symbols(bytes(24) + struct.pack("<IBBHQQ", 0, 0, 0, 0xFFF1, 0x1000, 0), 1)
    count = size // 44
    frames = it.eh_frame(it.body(record(0, CIE) + b"".join(record(28 + 20 * at, bytes(8) + bytes(4)) for at in range(count))))
    places = (32 + 20 * at for at in reversed(range(count)))
    it.section(SHT_RELA, it.body(b"".join(struct.pack("<QIIq", at, 2, 1, 0) for at in places)), link=table, info=frames, entry=24)
    return link(it.file())


def shared_relocations(size):
    """Sections of relocations over one body."""
    it = Object()
    table, frames = it.symbols(bytes(24), 1), it.eh_frame()
    body = it.body(bytes(size // 2 // 24 * 24))
    for _ in range(size // 128):
        it.section(SHT_RELA, body, link=table, info=frames, entry=24)
    return link(it.file())


def shared_sections(size):
    """Sections with call frame information over one body."""
    it = Object()
    body = it.body(record(0, CIE) * (size // 2 // len(record(0, CIE))))
    for _ in range(size // 128):
        it.eh_frame(body)
    return link(it.file())


def groups(size):
    """Groups, each with a signature of its own and one member."""
    count = size // 128
    it = Object()
    names = b"".join(b"\0%07d" % at for at in range(count)) + b"\0"
    table = it.symbols(b"".join(struct.pack("<IBBHQQ", 8 * at + 1, 0, 0, 0, 0, 0) for at in range(count)), it.section(SHT_STRTAB, it.body(names)))
    body = it.body(struct.pack("<II", 1, 0))
    for at in range(count):
        it.section(SHT_GROUP, body, link=table, info=at, entry=4)
    return link(it.file())


def shared_members(size):
    """Groups over one body of members, of which all but the first are dropped."""
    it = Object()
    table = it.symbols(bytes(24), 1)
    body = it.body(struct.pack("<I", 1) + bytes(size // 2 // 4 * 4))
    for _ in range(size // 128):
        it.section(SHT_GROUP, body, link=table, entry=4)
    return link(it.file())


def one_signature(size):
    """Groups with one long signature."""
    it = Object()
    strings = it.section(SHT_STRTAB, it.body(b"\0" + b"a" * (size // 2) + b"\0"))
    table = it.symbols(struct.pack("<IBBHQQ", 1, 0, 0, 0, 0, 0), strings)
    body = it.body(struct.pack("<I", 1))
    for _ in range(size // 128):
        it.section(SHT_GROUP, body, link=table, entry=4)
    return link(it.file())


def ends_of_a_signature(size):
    """Groups whose signatures are ends of one long text."""
    it = Object()
    count = size // 256
    strings = it.section(SHT_STRTAB, it.body(b"\0" + b"a" * (size // 2) + b"\0"))
    table = it.symbols(b"".join(struct.pack("<IBBHQQ", 1 + at, 0, 0, 0, 0, 0) for at in range(count)), strings)
    body = it.body(struct.pack("<I", 1))
    for at in range(count):
        it.section(SHT_GROUP, body, link=table, info=at, entry=4)
    return link(it.file())


def signatures_of_open_tables(size):
    """Groups whose signatures are ends of two long texts in turn, in tables whose last byte isn't zero."""
    it = Object()
    count = size // 256
    tables = []
    for _ in range(2):
        strings = it.section(SHT_STRTAB, it.body(b"\0" + b"a" * (size // 4) + b"\0a"))
        tables.append(it.symbols(b"".join(struct.pack("<IBBHQQ", 1 + at, 0, 0, 0, 0, 0) for at in range(count // 2)), strings))
    body = it.body(struct.pack("<I", 1))
    for at in range(count // 2 * 2):
        it.section(SHT_GROUP, body, link=tables[at % 2], info=at // 2, entry=4)
    return link(it.file())


def ends_of_unequal_texts(size):
    """Groups whose signatures are ends of two long texts in turn that differ in their last byte."""
    it = Object()
    count = size // 256
    tables = []
    for last in b"b", b"c":
        strings = it.section(SHT_STRTAB, it.body(b"\0" + b"a" * (size // 4) + last + b"\0"))
        tables.append(it.symbols(b"".join(struct.pack("<IBBHQQ", 1 + at, 0, 0, 0, 0, 0) for at in range(count // 2)), strings))
    body = it.body(struct.pack("<I", 1))
    for at in range(count // 2 * 2):
        it.section(SHT_GROUP, body, link=tables[at % 2], info=at // 2, entry=4)
    return link(it.file())


def signature_of_many_tables(size):
    """Groups with one long signature, each in a table of its own over one body whose last byte isn't zero."""
    it = Object()
    text = it.body(b"\0" + b"a" * (size // 2) + b"\0a")
    symbol = it.body(struct.pack("<IBBHQQ", 1, 0, 0, 0, 0, 0))
    body = it.body(struct.pack("<I", 1))
    for _ in range(size // 512):
        table = it.section(SHT_SYMTAB, symbol, link=it.section(SHT_STRTAB, text), entry=24)
        it.section(SHT_GROUP, body, link=table, entry=4)
    return link(it.file())


def section_names_of_an_open_table(size):
    """Sections with one long name, in a table whose last byte isn't zero."""
    it = Object(b"\0" + b"a" * (size // 2) + b"\0a")
    for _ in range(size // 128):
        it.section(SHT_PROGBITS, name=1, flags=SHF_ALLOC)
    return link(it.file())


def signatures_of_inputs(size):
    """Inputs whose signatures are ends of one long text."""
    files = {}
    for at in range(4):
        _, made = ends_of_a_signature(size // 4)
        files["F%d" % at] = made["IN"]
    return ["link", "OUT@0x50000000"] + ["%s@0x40000000" % it for it in files], files


# ---- call frame sections
# Version 1, augmentation zR, pointers relative to their field in 4 bytes; the CFA is the stack pointer and 8.
CIE = bytes([1]) + b"zR\0" + bytes([1, 0x78, 16, 1, 0x1B, 0x0C, 7, 8, 0x90, 1, 0, 0])


def put(made, first, step, numbers):
    """Writes a number of 4 bytes at each step."""
    bytes_of = array.array("I", numbers).tobytes()
    for at in range(4):
        made[first + at :: step] = bytes_of[at::4]


def record(pointer, rest):
    rest += bytes(-len(rest) % 4)
    return struct.pack("<II", len(rest) + 4, pointer) + rest


def long_cie(size):
    """A common information entry of this length."""
    return record(0, CIE + bytes([0x0E, 8]) * ((size - 28) // 2))


def entries(size, place, first, named):
    """Functions of 16 bytes from this place of the section on, whose common information entries are named in turn."""
    made, at = [], place
    while at < place + size:
        start = first + 16 * len(made)
        made.append(record(at + 4 - named[len(made) % len(named)], struct.pack("<iIB", start - at - 8, 16, 0)))
        at += len(made[-1])
    return b"".join(made)


def one_cie(size):
    """One long common information entry, and functions that name it."""
    cie = long_cie(size // 2)
    return link_bare(cie + entries(size // 2, len(cie), -0x8000000, [0]))


def cies_in_turn(size):
    """Two long common information entries, which functions name in turn."""
    cie = long_cie(size // 4)
    return link_bare(cie + cie + entries(size // 2, 2 * len(cie), -0x8000000, [0, len(cie)]))


def remembered(size):
    """A function that remembers and restores its row."""
    insns = bytes([0x0A] * 64 + [0x0B] * 64) * (size // 128)
    cie = record(0, CIE)
    return link_bare(cie + record(len(cie) + 4, struct.pack("<iIB", -0x1000, 16, 0) + insns))


def short_cies(size):
    """Common information entries, each named by a function."""
    made, at = [], 0
    while at < size:
        made.append(record(0, CIE) + record(len(record(0, CIE)) + 4, struct.pack("<iIB", -0x8000000, 8, 0)))
        at += len(made[-1])
    return link_bare(b"".join(made))


def tiny_records(size):
    """Records of 13 bytes, whose functions have no address."""
    # Version 1, augmentation zR, addresses and sizes in 2 bytes.
    cie = record(0, bytes([1]) + b"zR\0" + bytes([1, 0x78, 16, 1, 2, 0x0C, 7, 8, 0x90, 1]))
    count = (size - len(cie)) // 13
    made = bytearray((struct.pack("<II", 9, 0) + struct.pack("<HHB", 0x1000, 0, 0)) * count)
    put(made, 4, 13, range(len(cie) + 4, len(cie) + 4 + 13 * count, 13))
    return cie + bytes(made)


def link_of_tiny_records(size):
    return link_bare(tiny_records(size))


def verify_of_tiny_records(size):
    return ["verify", "S@0x50000000", "eh-amd64:IN@0x40000000"], {"S": apart(1), "IN": tiny_records(size)}


def long_record(count, start=0x1000):
    """A record of one function with a row at each of its addresses, for a section at 0x40000000."""
    # The CFA's offset goes up and down by 8, with each byte.
    insns = (bytes([0x41, 0x0E, 16]) + bytes([0x41, 0x0E, 8])) * (count // 2)
    cie = record(0, CIE)
    return cie + record(len(cie) + 4, struct.pack("<iIB", start - (0x40000000 + len(cie) + 8), count + 1, 0) + insns)


def rows_of_one_record(size):
    """A record of many rows: 64 MiB have more than a section may hold."""
    return link_bare(long_record(size // 3))


# ---- sections
def section(functions, rows, flags=5, width=0):
    """A section for AMD64. A function has its start, size, place among the rows, and count of rows; the width is that of rows' starts."""
    made = bytearray()
    for at, (start, size, place, count) in enumerate(functions):
        made += struct.pack("<iIIIBBH", start - (28 + 20 * at if flags & 4 else 0), size, place, count, width, 0, 0)
    total = sum(it[3] for it in functions)
    return struct.pack("<HBBBbbBIIIII", 0xDEE2, 2, flags, 3, 0, -8, 0, len(functions), total, len(rows), 0, len(made)) + made + rows


ROW = bytes([0, 3, 8])


def apart(count, first=0x1000, step=16, flags=5):
    """Functions with a row each."""
    return section([(first + step * at, 16, 3 * at, 1) for at in range(count)], ROW * count, flags)


def merged_sections(size):
    """512 sections whose functions take turns."""
    files = {"F%d" % at: apart(size // 512 // 23, 0x1000 + 16 * at, 16 * 512) for at in range(512)}
    return ["merge", "OUT@0x50000000"] + ["%s@0x40000000" % it for it in files], files


def shared_rows(size):
    """Functions that share 32 rows."""
    rows = b"".join(bytes([at, 3, 8 + at]) for at in range(32))
    return section([(0x1000 + 64 * at, 64, 0, 32) for at in range(min(size // 20, 1 << 19))], rows)


def merge_of_shared_rows(size):
    return ["merge", "OUT@0x50000000", "IN@0x40000000"], {"IN": shared_rows(size)}


def merge_of_one_section_again(size):
    """A section with all the rows that it may hold, 8192 that 2048 functions share, given again and again: the second time exceeds the limit."""
    rows = b"".join(struct.pack("<HBb", at, 3, 8) for at in range(8192))
    full = section([(0x1000 + 8192 * at, 8192, 0, 8192) for at in range(2048)], rows, 5, 1)
    return ["merge", "OUT@0x50000000"] + ["IN@0x40000000"] * min(512, size // len(full)), {"IN": full}


def dump_of_shared_rows(size):
    return ["dump", "IN@0x40000000"], {"IN": shared_rows(size)}


def slim_of_shared_rows(size):
    return ["slim", "OUT@0x50000000", "IN@0x40000000"], {"IN": shared_rows(size)}


def nested(size, base=0):
    """Functions in no order that hold each other, for a section at base; the one that holds 0x1005 is the last."""
    count = size // 23
    functions = [(0x100000 + at - base, 0x100000, 3 * at, 1) for at in range(count - 1)] + [(0x1000 - base, 16, 3 * count - 3, 1)]
    return section(functions, ROW * count, 4)


def one_end(size):
    """Functions in no order that end at one address, the shortest first; the one that holds 0x1005 is the last."""
    count = size // 20
    functions = [(0x10000000 - 2 * at, 2 * at, 0, 1) for at in range(1, count)] + [(0x1000, 16, 0, 1)]
    return section(functions, ROW, 4)


def long_function(count, base=0):
    """A function with a row at each of its addresses from 0x1000 on, and 16 addresses more, for a section at base."""
    if count <= 1 << 16:
        rows = bytearray(b"\0\0\3\x08" * count)
        starts = array.array("H", range(count)).tobytes()
        rows[0::4], rows[1::4] = starts[0::2], starts[1::2]
    else:
        rows = bytearray(b"\0\0\0\0\3\x08" * count)
        put(rows, 0, 6, range(count))
    return section([(0x1000 - base, count + 16, 0, count)], bytes(rows), 5, 1 if count <= 1 << 16 else 2)


def lookup_in_a_long_function(size):
    count = size // 6
    return ["lookup", "IN@0x0", hex(0x1000 + count)], {"IN": long_function(count)}


def all_rows(size):
    """3600 functions that share 4660 rows: at 16 MiB all the rows that a section may hold. No row says what the one before says."""
    count = min(3600, 3600 * size >> 24)
    rows = b"".join(struct.pack("<HBii", at, 0x45, 0x7FFF0000 + at, -0x7FFF0000 - at) for at in range(4660))
    return section([(0x1000 + 0x2000 * at, 0x2000, 0, 4660) for at in range(count)], rows, 5, 1)


def dump_of_all_rows(size):
    return ["dump", "IN@0x40000000"], {"IN": all_rows(size)}


def verify_of_all_rows(size):
    """The record is of another function."""
    return ["verify", "S@0x40000000", "eh-amd64:IN@0x30000000"], {"S": all_rows(size), "IN": long_record(2)}


def slim_of_all_rows(size):
    return ["slim", "OUT@0x50000000", "IN@0x40000000"], {"IN": all_rows(size)}


def upgrade_of_shared_rows(size):
    return ["upgrade", "OUT@0x50000000", "IN@0x40000000"], {"IN": shared_rows(size)}


def upgrade_of_all_rows(size):
    return ["upgrade", "OUT@0x50000000", "IN@0x40000000"], {"IN": all_rows(size)}


def upgrade_of_a_long_function(size):
    """It has more than 65,535 rows, and is refused."""
    return ["upgrade", "OUT@0x50000000", "IN@0x0"], {"IN": long_function(size // 6)}


def merge_of_all_rows(size):
    return ["merge", "OUT@0x50000000", "IN@0x40000000"], {"IN": all_rows(size)}


def lookup_among_nested(size):
    return ["lookup", "IN@0x0", "0x1005"], {"IN": nested(size)}


# ---- core files
class Core:
    """A core file for AMD64. Several segments may have one body."""

    def __init__(self):
        self.bodies, self.segments = bytearray(), []

    def body(self, content):
        place = len(self.bodies)
        self.bodies += content
        return place, len(content)

    def segment(self, kind, address, body):
        self.segments.append((kind, address, *body))

    def file(self):
        count = len(self.segments)
        first = 64 + 56 * count
        made = bytearray(64)
        for kind, address, place, size in self.segments:
            made += struct.pack("<IIQQQQQQ", kind, 6, first + place, address, 0, size, size, 1)
        made += self.bodies
        # The number of many segments is in the header of section 0.
        large = count >= PN_XNUM
        made[:64] = struct.pack(
            "<4sBBB9xHHIQQQIHHHHHH", b"\x7fELF", 2, 1, 1, 4, 62, 1, 0, 64, len(made) if large else 0, 0, 64, 56,
            PN_XNUM if large else count, 64 if large else 0, 1 if large else 0, 0,
        )
        if large:
            made += struct.pack("<IIQQQQIIQQ", 0, 0, 0, 0, 0, 0, 0, count, 0, 0)
        return bytes(made)


def core(segments):
    it = Core()
    for kind, address, content in segments:
        it.segment(kind, address, it.body(content))
    return it.file()


def note(kind, descriptor, name=b"CORE\0"):
    pad = lambda content: content + bytes(-len(content) % 4)
    return struct.pack("<III", len(name), len(descriptor), kind) + pad(name) + pad(descriptor)


def thread(pid, pc, sp, fp=0):
    """The status of a thread."""
    it = bytearray(336)
    struct.pack_into("<I", it, 32, pid)
    struct.pack_into("<Q", it, 144, fp)
    struct.pack_into("<QQ", it, 240, pc, 0)
    struct.pack_into("<Q", it, 264, sp)
    return note(NT_PRSTATUS, bytes(it))


def threads(count, pc=0x1005, sp=0x7010):
    return b"".join(thread(pid, pc, sp) for pid in range(1, count + 1))


# A thread's note.
THREAD = 356
# Where the frame pointers of `walk_over_chains` begin.
CHAINS = 1 << 40


def stack(pc=0x1005):
    """Memory at 0x7000 whose words lead back to this address."""
    return PT_LOAD, 0x7000, struct.pack("<Q", pc + 1) * 8192


def walk(content, walked, depth=64):
    return ["walk", "IN@0x0", "CORE", str(depth)], {"IN": content, "CORE": walked}


def walk_among_nested(size):
    """Walks whose function is the last of a section in no order."""
    return walk(nested(size // 2), core([(PT_NOTE, 0, threads(min(4096, size // 1024))), stack()]))


def walk_among_one_end(size):
    """Walks whose function is the last of a section in no order, after functions that end at one address."""
    return walk(one_end(size), core([(PT_NOTE, 0, threads(16)), stack()]))


def walk_over_segments(size):
    """Walks over memory in pieces of 8 bytes."""
    count = min(size // 64, 60000)
    pieces = [(PT_LOAD, 0x7000 + 8 * at, struct.pack("<Q", 0x1006)) for at in range(count)]
    return walk(apart(1), core([(PT_NOTE, 0, threads(min(4096, size // 1024)))] + pieces))


def falling(count):
    """Memory in pieces of 8 bytes at addresses that fall."""
    return [(PT_LOAD, 0x40000000 - 8 * at, bytes(8)) for at in range(count)]


def walk_over_falling_segments(size):
    """Walks by many threads over memory whose addresses fall."""
    count = min(4096, size // 512)
    return walk(apart(1), core([(PT_NOTE, 0, threads(count))] + falling((size - THREAD * count) // 64) + [stack()]))


def deep_walk_over_falling_segments(size):
    """A walk of 1024 frames over memory whose addresses fall."""
    return walk(apart(1), core([(PT_NOTE, 0, threads(1))] + falling(size // 64) + [stack()]), 1024)


def walk_over_shared_segments(size):
    """Memory whose segments share their bytes, pieces of which are read, since mapped files begin there. The frame pointers lead through segments that
    the next round reads."""
    it, count, shared = Core(), min(4096, size // 512), min(60000, size // 64)
    chain, top = 9, 0x7FFF00000000
    body = bytes(8 * count) + b"".join(struct.pack("<QQ", top + 32 * (at + 1), 0x1006) for at in range(chain))
    first = 0x10000000 + 16 * count
    places = [0x10000000 + 16 * at for at in range(count)]
    it.body(body)
    it.segment(PT_NOTE, 0, it.body(mapped([(place, place + 8, b"x") for place in places]) + thread(1, 0x1005, top, top)))
    for at, place in enumerate(places):
        it.segment(PT_LOAD, place, (8 * at, 8))
    for at in range(shared):
        it.segment(PT_LOAD, first + 16 * count * at, (0, 8 * count))
    for at in range(chain):
        it.segment(PT_LOAD, top + 32 * at, (8 * count + 16 * at, 16))
    # The CFA is the frame pointer and 16, the frame pointer 16 below it.
    return walk(section([(0x1000, 16, 0, 1)], bytes([0, 4, 16, 0xF0])), it.file())


def walk_over_chains(size):
    """Threads whose frame pointers lead through segments of their own that the file has apart, one in each round; and memory that nothing needs."""
    it, chain = Core(), 9
    count = min(4096, size // 2048)
    it.segment(PT_NOTE, 0, it.body(b"".join(thread(pid, 0x1005, 0, CHAINS + (pid << 20)) for pid in range(1, count + 1))))
    for pid in range(1, count + 1):
        for at in range(chain):
            it.segment(PT_LOAD, CHAINS + (pid << 20) + 32 * at, it.body(struct.pack("<QQ", CHAINS + (pid << 20) + 32 * (at + 1), 0x1006)))
            it.body(bytes(8))
    it.segment(PT_LOAD, CHAINS + (1 << 40), it.body(bytes(size // 2)))
    return walk(section([(0x1000, 16, 0, 1)], bytes([0, 4, 16, 0xF0])), it.file())


def notes_last(size):
    """A core file as a kernel writes it: addresses rise, and the stack is last. But the notes' header, whose address is 0, is after all others."""
    pieces = [(PT_LOAD, 0x100000 + 0x2000 * at, bytes(8)) for at in range(min(60000, size // 64))]
    top = 0x7FFF00000000
    memory = pieces + [(PT_LOAD, top, struct.pack("<Q", 0x1006) * 8192), (PT_NOTE, 0, threads(64, sp=top + 16))]
    return walk(apart(1), core(memory), 1024)


def notes(size):
    """Notes that say nothing of threads."""
    return walk(apart(1), core([(PT_NOTE, 0, note(9, b"") * (size // 20) + threads(1))]))


def segments_of_notes(size):
    """Segments of notes over one body of the shortest notes, and one with a thread."""
    it = Core()
    it.segment(PT_NOTE, 0, it.body(threads(1)))
    body = it.body(bytes(12) * (size // 2 // 12))
    for _ in range(size // 2 // 56):
        it.segment(PT_NOTE, 0, body)
    return walk(apart(1), it.file())


def segments_of_threads(size):
    """Segments of notes over one body of threads."""
    it = Core()
    body = it.body(threads(size // 2 // THREAD))
    for _ in range(size // 2 // 56):
        it.segment(PT_NOTE, 0, body)
    return walk(apart(1), it.file())


def threads_in_a_long_function(count, rows):
    """Threads at the last address of a function with this number of rows, and memory that leads back there."""
    pc = 0x1000 + rows - 1
    return [(PT_NOTE, 0, threads(count, pc)), stack(pc)]


def walk_in_a_long_function(size):
    """Walks at the end of a function with many rows."""
    rows = size // 2 // 6
    return walk(long_function(rows), core(threads_in_a_long_function(min(4096, size // 2 // THREAD), rows)))


def walk_in_65536_rows(size):
    """Walks by many threads at the end of a function with 65,536 rows."""
    return walk(long_function(1 << 16), core(threads_in_a_long_function(min(4096, size // 512), 1 << 16)))


def backtrace_in_a_long_function(size):
    """The same by a record of call frame information."""
    rows = size // 2 // 3 // 2 * 2
    walked = core(threads_in_a_long_function(min(4096, size // 2 // THREAD), rows))
    return ["backtrace", "OUT@0x50000000", "CORE", "64", "eh-amd64:IN@0x40000000"], {"IN": long_record(rows), "CORE": walked}


# ---- processes
def shared_object(content, address, segments=(), front=b"", name=b".sframe"):
    """A shared object of one segment from address 0 on, with this section at this address. Further segments have a kind, flags, a place in the file,
    an address, and a size in the file and in memory; after their headers there may be other bytes."""
    count = 1 + len(segments)
    place = 64 + 56 * count + len(front)
    names = b"\0" + name + b"\0"
    headers = place + len(content) + len(names)
    headers += -headers % 8
    made = bytearray(struct.pack("<4sBBB9xHHIQQQIHHHHHH", b"\x7fELF", 2, 1, 1, 3, 62, 1, 0, 64, headers, 0, 64, 56, min(count, PN_XNUM), 64, 3, 2))
    made += struct.pack("<IIQQQQQQ", PT_LOAD, 5, 0, 0, 0, headers, headers, 4096)
    for kind, flags, offset, vaddr, size, memory in segments:
        made += struct.pack("<IIQQQQQQ", kind, flags, offset, vaddr, 0, size, memory, 1)
    made += front + content + names
    made += bytes(headers - len(made)) + struct.pack("<IIQQQQIIQQ", 0, 0, 0, 0, 0, 0, 0, count if count >= PN_XNUM else 0, 0, 0)
    made += struct.pack("<IIQQQQIIQQ", 1, SHT_PROGBITS, SHF_ALLOC, address, place, len(content), 0, 0, 8, 0)
    return bytes(made) + struct.pack("<IIQQQQIIQQ", 0, SHT_STRTAB, 0, 0, place + len(content), len(names), 0, 0, 1, 0)


def mapped(entries):
    """The note on mapped files: for each a start, an end, a name, and the number of the file's page if it isn't the first."""
    made = struct.pack("<QQ", len(entries), 4096)
    made += b"".join(struct.pack("<QQQ", start, end, *(page or [0])) for start, end, _, *page in entries)
    made += b"".join(entry[2] + b"\0" for entry in entries)
    return note(NT_FILE, made)


def process(entries, module, times=1, memory=()):
    """Walks of threads by this file m, whose section is at 0x100000, over memory whose words lead back to its function. The file may be given more
    than once."""
    files = [(PT_NOTE, 0, mapped(entries) + threads(1000)), stack(), *memory]
    return ["procwalk", "CORE", "64"] + ["m"] * times, {"CORE": core(files), "m": module}


def module_of(content):
    return shared_object(content, 0x100000)


# The walked file's own entry.
OWN = (0, 0x2000, b"m")
# A section with one function, for 0x100000: a start counts from its own field.
ONE_FUNCTION = apart(1, 0x1000 - 0x100000)
ONE_MODULE = module_of(ONE_FUNCTION)


def process_among_nested(size):
    """Walks whose function is the last of a module's section in no order."""
    return process([OWN], module_of(nested(size, 0x100000)))


def process_in_a_long_function(size):
    """Walks at the end of a module's function with many rows."""
    rows = size // 2 // 6
    walked = core([(PT_NOTE, 0, mapped([(0, 1 << 32, b"m")]))] + threads_in_a_long_function(min(4096, size // 2 // THREAD), rows))
    return ["procwalk", "CORE", "64", "m"], {"CORE": walked, "m": module_of(long_function(rows, 0x100000))}


def entries_that_overlap(size):
    """The entry that holds the threads' addresses is the last, after entries that hold each other."""
    return process([(0x100000 + 4096 * at, 1 << 40, b"x") for at in range(size // 26)] + [OWN], ONE_MODULE)


def entries_with_one_end(size):
    """The entry that holds the threads' addresses is the last, after entries that end at one address, the shortest first."""
    return process([((1 << 40) - 4096 * at, 1 << 40, b"x") for at in range(1, size // 26)] + [OWN], ONE_MODULE)


def entries_of_one_file(size):
    """Entries of the walked file, after its first one at addresses that fall."""
    return process([OWN] + [(4096 * at, 4096 * at + 4096, b"m") for at in range(size // 26, 1, -1)], ONE_MODULE)


def files_and_a_long_name(size):
    """A file that is given 512 times, and an entry with a long name."""
    return process([(1 << 40, (1 << 40) + 4096, b"a" * size), OWN], ONE_MODULE, 512)


def files_and_alike_names(size):
    """A file that is given 512 times, and entries with names of 250 bytes of which the last few differ."""
    names = [(at << 20, (at << 20) + 4096, b"a" * 240 + b"%010d" % at) for at in range(1, size // 275)]
    return process(names + [OWN], ONE_MODULE, 512)


def candidates(count):
    """Entries of the walked file, each with all addresses from its own start on."""
    return [(0x10000000 + 4096 * at, 1 << 46, b"m") for at in range(count)]


def candidates_of_many_segments(size):
    """Entries of one file, and a file with many segments, of which all but the last fit each of these entries."""
    segments = [(PT_LOAD, 5, 8 * at, 8 * at, 8, 8) for at in range(1, size // 4 // 56)] + [(PT_LOAD, 5, 8, 12, 8, 8)]
    return process(candidates(size // 2 // 26), shared_object(ONE_FUNCTION, 0x100000, segments))


def candidates_but_the_last(size, times):
    """Entries of one file that don't fit its second segment, but for the last."""
    module = shared_object(ONE_FUNCTION, 0x100000, [(PT_LOAD, 6, 0x1000, 0x5008, 8, 8)], bytes(0x1000))
    return process(candidates(size // 26) + [(0x5008, 0x6000, b"m", 1), OWN], module, times)


def file_of_many_candidates(size):
    return candidates_but_the_last(size, 1)


def files_of_many_candidates(size):
    """The file is given 512 times."""
    return candidates_but_the_last(size, 512)


def executables_over_falling_segments(size):
    """A file with many executable segments, and memory in pieces of 8 bytes at addresses that fall."""
    segments = [(PT_LOAD, 5, 8 * at, 0x20000 + 8 * at, 8, 8) for at in range(1, size // 2 // 56)]
    return process([OWN, (0x20000, 0x10000000, b"m")], shared_object(ONE_FUNCTION, 0x100000, segments), 1, falling(size // 2 // 64))


def notes_of_a_module(size):
    """A file with loaded segments of notes over one body of the shortest notes."""
    count = size // 2 // 56
    place, length = 64 + 56 * (1 + count), size // 2 // 12 * 12
    return process([(0, 1 << 32, b"m")], shared_object(ONE_FUNCTION, 0x100000, [(PT_NOTE, 4, place, place, length, length)] * count, bytes(length)))


def loads_and_notes_of_a_module(size):
    """A file with segments of notes with a build id, each in the last of many loaded segments, whose bytes are in the last of many pieces of memory."""
    count, last = size // 176, 1 << 40
    place, build = 64 + 56 * (1 + 2 * count), note(NT_GNU_BUILD_ID, bytes(20), b"GNU\0")
    segments = [(PT_LOAD, 4, 0, (1 << 32) + 16 * at, 0, 8) for at in range(count - 1)] + [(PT_LOAD, 4, place, last, len(build), len(build))]
    segments += [(PT_NOTE, 4, place, last, len(build), len(build))] * count
    entries = [OWN, (last - place % 4096, last + 4096, b"m", place // 4096)]
    return process(entries, shared_object(ONE_FUNCTION, 0x100000, segments, build), 1, falling(count) + [(PT_LOAD, last, build)])


def process_with_a_short_identifier(size):
    """A file with a build identifier of four bytes, which the core file has at a segment's end; and much memory that nothing needs."""
    place, build, last = 64 + 56 * 3, note(NT_GNU_BUILD_ID, bytes([1, 2, 3, 4]), b"GNU\0"), 1 << 40
    segments = [(kind, 4, place, last, len(build), len(build)) for kind in (PT_LOAD, PT_NOTE)]
    entries = [OWN, (last - place % 4096, last + 4096, b"m", place // 4096)]
    return process(entries, shared_object(ONE_FUNCTION, 0x100000, segments, build), 1, [(PT_LOAD, last, build), (PT_LOAD, last << 1, bytes(size))])


# ---- processes of which the files have call frame information
# Where the files have it.
EH_FRAME = 0x100000
# The augmentation of a signal frame. The CFA is saved at the stack pointer, the return address 8 bytes above it, the frame pointer where the CFA is.
SIGNAL_CIE = bytes([1]) + b"zRS\0" + bytes([1, 0x78, 16, 1, 0x1B, 0x0F, 3, 0x77, 0, 6, 0x10, 16, 2, 0x77, 8, 0x10, 6, 2, 0x77, 0])


def described(cie, size):
    """A file with this common information entry and functions of 16 bytes from 0x1000 on, and how many these are."""
    first = record(0, cie)
    functions = entries(size, len(first), 0x1000 - EH_FRAME, [0])
    return shared_object(first + functions + bytes(4), EH_FRAME, name=b".eh_frame"), len(functions) // 20


def backtrace(names, files, memory, depth=64):
    """Walks through these files with a core file's notes and memory."""
    return ["procbacktrace", "CORE", str(depth), *names], {"CORE": core(memory), **files}


def backtrace_over_signals(size):
    """Threads in the last of many signal frames, at each of which what was interrupted is the same frame again."""
    module, count = described(SIGNAL_CIE, size)
    pc = 0x1000 + 16 * (count - 1) + 5
    notes = mapped([(0, 1 << 32, b"m")]) + threads(min(4096, size // 4096), pc)
    return backtrace(["m"], {"m": module}, [(PT_NOTE, 0, notes), (PT_LOAD, 0x7010, struct.pack("<QQ", 0x7010, pc))], 1024)


def backtrace_over_signals_of_one_entry(size):
    """Signal frames that name one long common information entry."""
    module, _ = described(SIGNAL_CIE + bytes(size // 2), size // 2)
    return backtrace(["m"], {"m": module}, [(PT_NOTE, 0, mapped([(0, 1 << 32, b"m")]) + threads(1)), stack()])


def deep_backtrace(size):
    """Walks of 1024 frames, the most that are listed."""
    module, _ = described(CIE, 24)
    notes = mapped([OWN]) + threads(min(4096, size // 8192))
    return backtrace(["m"], {"m": module}, [(PT_NOTE, 0, notes), stack()], 1024)


def backtrace_with_long_names(size):
    """Frames in a file whose name has 250 bytes, each of which is shown by four."""
    name = "\x01" * 250
    module, _ = described(CIE, 24)
    notes = mapped([(*OWN[:2], name.encode())]) + threads(min(4096, size // 16384))
    return backtrace([name], {name: module}, [(PT_NOTE, 0, notes), stack()])


def backtrace_of_many_files(size):
    """512 files with functions, each with an entry of its own, and threads in the last."""
    module, _ = described(CIE, size // 512)
    files = {"m%d" % at: module for at in range(512)}
    places = [(at << 32, (at << 32) + 0x2000, name.encode()) for at, name in enumerate(files)]
    notes = mapped(places) + threads(1000, (511 << 32) + 0x1005)
    return backtrace(files, files, [(PT_NOTE, 0, notes), stack((511 << 32) + 0x1005)])


def backtrace_of_one_file_again(size):
    """A file with functions that is given 512 times."""
    module, _ = described(CIE, size // 512)
    return backtrace(["m"] * 512, {"m": module}, [(PT_NOTE, 0, mapped([OWN]) + threads(1000)), stack()])


def backtrace_past_other_files(size):
    """Entries of other names, which overlap and hold the threads' addresses first, and files of these names that the process had not mapped."""
    module, _ = described(CIE, 24)
    others = [(0x100000 + 4096 * at, 1 << 40, b"x%d" % at) for at in range(size // 32)]
    files = {"m": module, **{"y%d" % at: b"" for at in range(511)}}
    return backtrace(files, files, [(PT_NOTE, 0, mapped(others + [OWN]) + threads(1000)), stack()])


def main(name, size, folder):
    words, files = globals()[name](int(size))
    for file_name, content in files.items():
        with open(os.path.join(folder, file_name), "wb") as file:
            file.write(content)
    print("\n".join(words))


if __name__ == "__main__":
    main(*sys.argv[1:])
