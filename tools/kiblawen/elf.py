"""What the commands need from ELF files for AMD64 and AArch64: AT, BASE, the build identifier, sections, and which files there are."""

import collections
import os
import struct

# e_machine of the two machines, by the ELF64 gABI.
MACHINES = {62: "amd64", 183: "aarch64"}
ET_REL, ET_EXEC, ET_DYN = 1, 2, 3
PT_LOAD, PT_NOTE, PN_XNUM = 1, 4, 0xFFFF
SHT_SYMTAB, SHT_STRTAB, SHT_NOBITS, SHN_XINDEX = 2, 3, 8, 0xFFFF
# Of a section of SFrame Version 3 (GNU binutils from 2.46 on).
SHT_GNU_SFRAME = 0x6FFFFFF4
SHF_ALLOC, SHF_EXECINSTR = 2, 4
NT_GNU_BUILD_ID = 3
PAGE = 4096
# As many bytes are read of a section's name: those that are asked for are shorter. An identifier has at most these bytes, or none is taken.
NAME_LENGTH, IDENTIFIER_LENGTH = 64, 64
# Where the commands load a file: a program or shared object lies where it says itself.
BASE = 0


def read_at(file, offset, length):
    """The bytes of an open file at an offset, as many of them as it has: what a header asks for is not reserved."""
    size = os.fstat(file.fileno()).st_size
    if offset >= size:
        return b""
    file.seek(offset)
    return file.read(min(length, size - offset))


def kind_in(head):
    """The type and the machine of a little-endian ELF64 program, shared object or relocatable object, by its first bytes; none for any other file."""
    if len(head) < 64 or head[:6] != b"\x7fELF\x02\x01":
        return None, None
    kind, number = struct.unpack_from("<HH", head, 16)
    return (kind, MACHINES.get(number)) if kind in (ET_REL, ET_EXEC, ET_DYN) else (None, None)


def machine(path):
    """The machine of a little-endian ELF64 program, shared object or relocatable object; none for any other file."""
    try:
        with open(path, "rb") as file:
            return kind_in(file.read(64))[1]
    except OSError:
        return None


def is_object(path):
    """Whether an ELF file is a relocatable object: its sections have no addresses of their own."""
    with open(path, "rb") as file:
        return struct.unpack_from("<H", file.read(18), 16) == (ET_REL,)


def is_finished(file):
    """Whether an open file is a program or shared object for one of the two machines."""
    kind, found = kind_in(read_at(file, 0, 64))
    return found is not None and kind != ET_REL


def files_below(folders):
    """The ELF files below these folders, each file once. A folder may be a file's name as well."""
    seen, found = set(), []
    for folder in folders:
        walked = os.walk(folder) if os.path.isdir(folder) else [(os.path.dirname(folder), (), (os.path.basename(folder),))]
        for place, _, names in walked:
            for name in names:
                path = os.path.realpath(os.path.join(place, name))
                if path not in seen and os.path.isfile(path) and machine(path):
                    seen.add(path)
                    found.append(path)
    return sorted(found)


Segment = collections.namedtuple("Segment", "kind flags offset start physical length size alignment")


def table_of_segments(file):
    """Where an open ELF file has its program headers: the offset, the bytes of each, and how many."""
    head = read_at(file, 0, 64)
    place, sections_at = struct.unpack_from("<QQ", head, 32)
    entry, count = struct.unpack_from("<HH", head, 54)
    if count == PN_XNUM:
        count = struct.unpack_from("<I", read_at(file, sections_at, 64).ljust(64, b"\0"), 44)[0]
    return place, entry, count


def program_headers(file):
    """The program headers of an open ELF file, those that are whole."""
    place, entry, count = table_of_segments(file)
    table = read_at(file, place, entry * count)
    return [Segment(*struct.unpack_from("<IIQQQQQQ", table, at)) for at in range(0, len(table) - 55, max(entry, 56))]


def segments(file):
    """The segments of an open ELF file: (p_type, p_offset, p_vaddr, p_filesz, p_memsz)."""
    for it in program_headers(file):
        yield it.kind, it.offset, it.start, it.length, it.size


Section = collections.namedtuple("Section", "name kind flags start offset size")


def section_headers(file):
    """The section headers of an open ELF file, those that are whole: none if it has no section headers. Their fields up to sh_info."""
    return headers_and_names(file)[0]


def headers_and_names(file):
    """The section headers of an open ELF file, and which of them has the names."""
    head = read_at(file, 0, 64)
    place = struct.unpack_from("<Q", head, 40)[0]
    entry, count, names = struct.unpack_from("<HHH", head, 58)
    if not place:
        return [], 0
    first = read_at(file, place, 64).ljust(64, b"\0")
    count = count or struct.unpack_from("<Q", first, 32)[0]
    names = struct.unpack_from("<I", first, 40)[0] if names == SHN_XINDEX else names
    table = read_at(file, place, entry * count)
    return [struct.unpack_from("<IIQQQQII", table, at) for at in range(0, len(table) - 63, max(entry, 64))], names


def sections(file):
    """The sections of an open ELF file, with the first bytes of their names."""
    headers, names = headers_and_names(file)
    if names >= len(headers):
        return []
    texts = read_at(file, *headers[names][4:6])
    return [Section(name_in(texts, it[0]), *it[1:6]) for it in headers]


def place_of_section_header(file, name):
    """The offset of the section header of this name in an open ELF file that has one."""
    number = [it.name for it in sections(file)].index(name)
    return struct.unpack("<Q", read_at(file, 40, 8))[0] + struct.unpack("<H", read_at(file, 58, 2))[0] * number


def name_in(texts, at):
    """The first bytes of the name at a place of a table of names."""
    last = min(at + NAME_LENGTH, len(texts))
    end_of_name = texts.find(b"\0", at, last)
    return texts[at : last if end_of_name < 0 else end_of_name].decode(errors="backslashreplace")


def end(file, found):
    """The offset after the last byte of an open ELF file with these sections that one of its headers, sections or segments has."""
    place, entry, count = table_of_segments(file)
    sections_at = struct.unpack("<Q", read_at(file, 40, 8))[0]
    ends = [place + entry * count, sections_at + 64 * len(found)]
    ends += [offset + length for _, offset, _, length, _ in segments(file)]
    return max(ends + [it.offset + it.size for it in found if it.kind != SHT_NOBITS])


def last_loaded_in(file):
    """The address after an open file's last loaded byte; 0 where it has no loaded segment."""
    return max((start + size for kind, _, start, _, size in segments(file) if kind == PT_LOAD), default=0)


def last_loaded(path):
    with open(path, "rb") as file:
        return last_loaded_in(file)


def page_after(path):
    """AT for the section of a file: the first page after its last loaded byte; of an object, room after its sections."""
    return (last_loaded(path) or os.path.getsize(path)) + PAGE - 1 & -PAGE


def notes(file):
    """The bytes of each PT_NOTE segment of an open file. It ends where they have more bytes together than the file: no linker lets them overlap."""
    left = os.fstat(file.fileno()).st_size
    for it in program_headers(file):
        if it.kind == PT_NOTE:
            left -= it.length
            if left < 0:
                return
            yield read_at(file, it.offset, it.length)


def build_id(path):
    """Returns the build identifier of a file in hexadecimal digits, or None if its notes have none."""
    with open(path, "rb") as file:
        return build_id_of(file)


def build_id_of(file):
    return next(filter(None, map(build_id_in, notes(file))), None)


def build_id_in(content):
    at = 0
    while at + 12 <= len(content):
        name_len, length, kind = struct.unpack_from("<III", content, at)
        descriptor = at + 12 + (name_len + 3 & -4)
        if kind == NT_GNU_BUILD_ID and length <= IDENTIFIER_LENGTH and content[at + 12 : at + 12 + name_len] == b"GNU\0":
            return content[descriptor : descriptor + length].hex()
        at = descriptor + (length + 3 & -4)
    return None
