"""Names addresses of an ELF file: by its symbols, those of its debug file, and by addr2line where there are lines."""

import bisect
import os
import re
import resource
import shutil
import struct
import subprocess
import tempfile

from kiblawen import elf

SHT_DYNSYM = 11
STB_LOCAL = 0
# Types of symbols that may name code.
STT_NOTYPE, STT_FUNC, STT_GNU_IFUNC = 0, 2, 10
SYMBOL = struct.Struct("<IBBHQQ")
# Symbols that are read at a time, and the bytes that are read of a name.
SYMBOLS, NAME_LENGTH = 1 << 16, 1 << 10
# What a command of binutils may take, as the files need not be sound: seconds, bytes of memory and of output.
SECONDS, MEMORY, OUTPUT = 60, 8 << 30, 64 << 20
MANGLED = re.compile(r"_[ZR]\w")
# What addr2line prints for a function or a line that it doesn't know.
UNKNOWN = re.compile(r"\?\?$|.*:[0?]$")


def tables(file):
    """The symbol tables of an open file, the one for the linker first: offset and size, and the offset of its names."""
    headers = elf.section_headers(file)
    for wanted in (elf.SHT_SYMTAB, SHT_DYNSYM):
        found = next((it for it in headers if it[1] == wanted and it[6] < len(headers)), None)
        if found:
            yield found[4], found[5], headers[found[6]][4]


def names_code(kind, binding):
    """Whether a symbol of this type and binding may name code. A local one without a type is a label, or marks a part as code or data."""
    return kind in (STT_FUNC, STT_GNU_IFUNC) or kind == STT_NOTYPE and binding != STB_LOCAL


def best_of(file, offset, size, addresses):
    """For each of some addresses in order the last symbol that starts up to it, as (start, is global, size, place of its name), or None."""
    best = [None] * len(addresses)
    for at in range(0, size, SYMBOL.size * SYMBOLS):
        content = elf.read_at(file, offset + at, min(SYMBOL.size * SYMBOLS, size - at))
        if not content:
            break
        for name, info, _, section, start, length in SYMBOL.iter_unpack(content[: len(content) // SYMBOL.size * SYMBOL.size]):
            if not section or not names_code(info & 15, info >> 4):
                continue
            place = bisect.bisect_left(addresses, start)
            if place < len(best):
                found = (start, info >> 4 != STB_LOCAL, length, name)
                best[place] = max(best[place] or found, found)
    for place in range(1, len(best)):
        best[place] = max(filter(None, best[place - 1 : place + 1]), default=None)
    return best


def by_symbols(file, addresses):
    """The names of those addresses that a symbol has, each with the offset after its start."""
    addresses, named = sorted(addresses), {}
    for offset, size, texts in tables(file):
        left = [it for it in addresses if it not in named]
        for address, found in zip(left, best_of(file, offset, size, left)):
            if found and (address < found[0] + found[2] or not found[2]):
                name = elf.read_at(file, texts + found[3], NAME_LENGTH).partition(b"\0")[0].decode("utf-8", "surrogateescape")
                named[address] = (name, address - found[0])
    return named


def limited():
    """Sets the limits of a command, before it begins."""
    resource.setrlimit(resource.RLIMIT_AS, (MEMORY, MEMORY))
    resource.setrlimit(resource.RLIMIT_CPU, (SECONDS, SECONDS))
    resource.setrlimit(resource.RLIMIT_FSIZE, (OUTPUT, OUTPUT))
    resource.setrlimit(resource.RLIMIT_CORE, (0, 0))


def lines_of(words, given):
    """What a command prints for these lines: none if it isn't there, fails, or takes too much."""
    if not shutil.which(words[0]):
        return []
    with tempfile.TemporaryFile() as said:
        try:
            how = {"input": given.encode("utf-8", "surrogateescape"), "stdout": said, "stderr": subprocess.DEVNULL, "preexec_fn": limited}
            ran = subprocess.run(words, timeout=2 * SECONDS, check=False, **how)
        except subprocess.TimeoutExpired:
            return []
        said.seek(0)
        return said.read(OUTPUT).decode("utf-8", "surrogateescape").split("\n")[:-1] if ran.returncode == 0 else []


def has_lines(file):
    return any(it.name in (".debug_line", ".zdebug_line") for it in elf.sections(file))


def by_lines(path, addresses):
    """The functions and lines of addresses, the innermost of inlined functions first: pairs of texts, of which one may be empty."""
    found, current = {}, None
    said = iter(lines_of(["addr2line", "-a", "-f", "-i", "-C", "-e", path], "".join(f"{it:#x}\n" for it in addresses)))
    for line in said:
        if line.startswith("0x"):
            current = found.setdefault(int(line, 16), [])
        elif current is not None:
            place = re.sub(r" \(discriminator \d+\)$", "", next(said, ""))
            current.append(tuple("" if UNKNOWN.match(it) else it for it in (line, place)))
    return found


def demangled(names):
    """The names as C++ and Rust have them, where c++filt is there."""
    mangled = [it for it in names if MANGLED.match(it) and "\n" not in it]
    said = lines_of(["c++filt"], "".join(f"{it}\n" for it in mangled))
    return dict(zip(mangled, said)) if len(said) == len(mangled) else {}


class Names:
    """The names of addresses of one file: `symbol` and `lines` by address."""

    def __init__(self, path, debug, addresses, with_lines):
        self.symbols, self.lines = {}, {}
        for place in filter(None, (path, debug)):
            with open(place, "rb") as file:
                left = [it for it in addresses if it not in self.symbols]
                self.symbols.update(by_symbols(file, left))
                if with_lines and has_lines(file):
                    self.lines.update(by_lines(os.path.abspath(place), addresses))
        shown = demangled({name for name, _ in self.symbols.values()})
        self.symbols = {at: (shown.get(name, name), offset) for at, (name, offset) in self.symbols.items()}

    def at(self, address, above):
        """The functions that an address is in, the innermost first, each with its line: pairs of texts, of which one may be empty. A symbol's
        offset is that of the program counter, which is so far above the address."""
        found = [it for it in self.lines.get(address, ()) if any(it)]
        name, offset = self.symbols.get(address, (None, 0))
        symbol = "" if name is None else f"{name}+{offset + above:#x}"
        if not found or not found[-1][0]:
            return [*found[:-1], (symbol, found[-1][1] if found else "")]
        return found
