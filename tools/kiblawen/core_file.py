"""Reads core files: which files were mapped where, and memory. Nothing that a core file says is trusted: counts and lengths have limits."""

import bisect
import collections
import struct

from kiblawen import elf

ET_CORE = 4
PF_X = 1
NT_FILE = 0x46494C45
# How much of a core file is read: of its notes (a kernel's note on mapped files has at most 4 MiB, and those of a thread a few KiB), of its
# segments' headers, of a file's program headers in its memory, and for all build identifiers together.
MOST_NOTES, MOST_SEGMENTS, MOST_HEADERS, MOST_IDENTIFIERS = 64 << 20, 1 << 18, 1 << 8, 16 << 20

# A mapping of a file: its addresses, the offset in the file, and the file's name. Where there may be very many it is a plain tuple.
Mapping = collections.namedtuple("Mapping", "start end offset name")
# The lengths of a note's name and descriptor, and its type.
NOTE = struct.Struct("<III")


class NotCore(Exception):
    """Why a file can't be used as a core file."""


def first_note(content, wanted, owner):
    """The descriptor of the first note of a type whose name begins so, or None."""
    at, last, fields = 0, len(content) - NOTE.size, NOTE.unpack_from
    while at <= last:
        name_len, length, kind = fields(content, at)
        descriptor = at + 12 + (name_len + 3 & -4)
        if kind == wanted and len(owner) <= name_len and content.startswith(owner, at + 12):
            return content[descriptor : descriptor + length]
        at = descriptor + (length + 3 & -4)
    return None


def mappings_in(note):
    """The mappings that the bytes of a note on mapped files have, as tuples, in order."""
    if len(note) < 16:
        return []
    count, page = struct.unpack_from("<QQ", note)
    count = min(count, (len(note) - 16) // 24)
    names = note[16 + 24 * count :].split(b"\0", count)
    fields = struct.unpack_from(f"<{3 * count}Q", note, 16)
    return sorted(zip(fields[::3], fields[1::3], [it * page for it in fields[2::3]], names))


def merged(ranges):
    """Ranges in order, those that touch as one."""
    found = []
    for start, end in sorted(ranges):
        if found and start <= found[-1][1]:
            found[-1] = (found[-1][0], max(end, found[-1][1]))
        else:
            found.append((start, end))
    return found


class Core:
    """An open core file: its segments in order of address, and the files that were mapped."""

    def __init__(self, file):
        self.file, self.left = file, MOST_IDENTIFIERS
        head = elf.read_at(file, 0, 64)
        if len(head) < 64 or head[:6] != b"\x7fELF\x02\x01" or struct.unpack_from("<H", head, 16)[0] != ET_CORE:
            raise NotCore("it is no core file of a 64-bit machine")
        if elf.table_of_segments(file)[2] > MOST_SEGMENTS:
            raise NotCore(f"it has more than {MOST_SEGMENTS} segments")
        headers = elf.program_headers(file)
        self.loads = sorted((it for it in headers if it.kind == elf.PT_LOAD), key=lambda it: it.start)
        self.starts = [it.start for it in self.loads]
        self.code = merged((it.start, it.start + it.size) for it in self.loads if it.flags & PF_X and it.size)
        self.mappings = self.mapped(it for it in headers if it.kind == elf.PT_NOTE)
        self.mapping_starts = [it[0] for it in self.mappings]

    def mapped(self, headers):
        """The mappings of the first note on mapped files."""
        left = MOST_NOTES
        for it in headers:
            content = elf.read_at(self.file, it.offset, min(it.length, left))
            left -= len(content)
            note = first_note(content, NT_FILE, b"CORE\0")
            if note is not None:
                return mappings_in(note)
        raise NotCore("it has no note on mapped files: `sf_tool backtrace` takes a program and its address")

    def mapping_at(self, address):
        """The mapping that has an address, or none."""
        at = bisect.bisect_right(self.mapping_starts, address) - 1
        return Mapping(*self.mappings[at]) if at >= 0 and address < self.mappings[at][1] else None

    def names_with_code(self, most):
        """The names of the first files, up to a number, that have a mapping with an address of a segment with code, or with none of any segment: gdb
        omits those that nothing has changed."""
        names, after = set(), bisect.bisect_right
        code, code_ends, ends = self.code, [end for _, end in self.code], [it.start + it.size for it in self.loads]
        for start, end, _, name in self.mappings:
            at, place = after(code_ends, start), after(self.starts, start) - 1
            if at < len(code) and code[at][0] < end or place < 0 or ends[place] <= start:
                names.add(name)
                if len(names) == most:
                    break
        return names

    def is_elf(self, mapping):
        """Whether the process had the header of an ELF file at a mapping."""
        return self.read(mapping.start, 4) == b"\x7fELF"

    def read(self, address, length):
        """Bytes of the memory: as many as the segment of this address has in the core file."""
        at = bisect.bisect_right(self.starts, address) - 1
        if at < 0:
            return b""
        it = self.loads[at]
        inside = address - it.start
        return elf.read_at(self.file, it.offset + inside, min(length, it.length - inside)) if inside < it.length else b""

    def build_id_at(self, start):
        """The build identifier of the file whose header is in memory at an address, or None."""
        head = self.read_some(start, 64)
        if elf.kind_in(head)[1] is None:
            return None
        place, (entry, count) = struct.unpack_from("<Q", head, 32)[0], struct.unpack_from("<HH", head, 54)
        if entry < 56 or count > MOST_HEADERS:
            return None
        table = self.read_some(start + place, entry * count)
        headers = [elf.Segment(*struct.unpack_from("<IIQQQQQQ", table, at)) for at in range(0, len(table) - 55, entry)]
        first = min((it.start - it.offset for it in headers if it.kind == elf.PT_LOAD), default=0)
        notes = (self.read_some(start + it.start - first, it.length) for it in headers if it.kind == elf.PT_NOTE)
        return next(filter(None, map(elf.build_id_in, notes)), None)

    def read_some(self, address, length):
        """Bytes of a file's headers and notes in the memory, as long as not too many were read of all."""
        found = self.read(address, min(length, self.left, 1 << 16))
        self.left -= len(found)
        return found


