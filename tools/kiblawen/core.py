"""Prints the stacks of all threads in a core file, with the names of their functions.

    kiblawen-core CORE                             with the files that the process had mapped, where they were
    kiblawen-core --root DIR CORE                  with those of another system, below DIR
    kiblawen-core --build-ids DIR [..] CORE        and with those that DIR has by their build identifiers

It takes the mapped files that have code from the core file, and gives them to `sf_tool procbacktrace`, whose lines it prints. In a line it
adds ` in FUNCTION` and ` at FILE:LINE`; a line ` inlined in ..` follows for each function that the compiler has inlined there. A caller is
named by the address before its program counter, which is in the call.

A file of another build than the core file's, and one that is missing, is looked for as xx/yyyy below the folders of build identifiers, where
xxyyyy is the identifier; its symbols and lines are also looked for in xx/yyyy.debug. These folders are usr/lib/debug/.build-id and
usr/lib/.build-id below the root, and those that are named. Names need nothing else; lines need addr2line, and C++ names c++filt.

Standard error has a line `unused FILE: why` for each file with code that isn't given to `sf_tool`, and what `sf_tool` prints there. The status is
that of `sf_tool`: 0 if the stacks were printed. It is 5 if CORE is no core file, or none of its files can be used, and 2 if the arguments are wrong.
"""

import bisect
import collections
import contextlib
import itertools
import os
import re
import stat
import struct
import subprocess
import sys
import tempfile

from kiblawen import common, core_file, elf, program, symbols, tables

NAME = "kiblawen-core"
REFUSED = 5
# The files that a run of the program takes, the names that are tried, the parts of a name, the segments of a file, the addresses that are named.
MOST_FILES, MOST_NAMES, MOST_PARTS, MOST_LOADS, MOST_ADDRESSES = 512, 4096, 32, 256, 1 << 16
DEPTHS = range(1, 1025)
FOLDERS = ("usr/lib/debug/.build-id", "usr/lib/.build-id")
# Folders of the kernel's: to open or read a file there may do something.
KERNEL = (b"/proc/", b"/sys/", b"/dev/")
DELETED = b" (deleted)"
FRAME = re.compile(r" +#(\d+) pc (0x[0-9a-f]+)")
ITEM = re.compile(r"(?:refused|limit file) (\d+)\b")

# A mapped file: the file that is used for it, and that with its symbols and lines, or None.
Module = collections.namedtuple("Module", "path debug segments")


class Unused(Exception):
    """Why a mapped file isn't used."""


class Data(Unused):
    """A mapped file isn't used, as it is none with code."""


def text_of(name):
    return os.fsdecode(name)


def without_mark(name):
    """A mapped file's name without the kernel's mark of one that was deleted or replaced."""
    return name[: -len(DELETED)] if name.endswith(DELETED) else name


def opened(path):
    """Opens a program or shared object, which is a regular file: nothing else is opened."""
    if not stat.S_ISREG(os.stat(path).st_mode):
        raise Unused("it is no regular file")
    file = os.fdopen(os.open(path, os.O_RDONLY | os.O_NONBLOCK), "rb")
    if not elf.is_finished(file):
        file.close()
        raise Data("it is no program or shared object for AMD64 or AArch64")
    return file


def below(root, name):
    """The pathname of a mapped file below a root, out of which no link leads."""
    if not name.startswith(b"/") or b".." in name.split(b"/") or name.startswith(KERNEL):
        raise Unused("it has no pathname")
    path = os.path.realpath(os.path.join(root, text_of(name[1:])))
    if os.path.commonpath([root, path]) != root:
        raise Unused("a link leads out of the root")
    return path


def by_build_id(folders, wanted, ending=""):
    """The file with a build identifier in folders that are arranged by them, or None."""
    for folder in folders:
        path = os.path.join(folder, wanted[:2], f"{wanted[2:]}{ending}")
        with contextlib.suppress(OSError, Unused, struct.error), opened(path) as file:
            if elf.build_id_of(file) == wanted:
                return path
    return None


def file_of_build(path, wanted, has_to_have):
    """Checks that a file is the build with an identifier, if both are known, or if it has to be known."""
    with opened(path) as file:
        found = elf.build_id_of(file)
    if found != wanted and (found and wanted or has_to_have):
        raise Unused(f"it has the build identifier {found}, and the process had {wanted}")
    return path


def file_for(core, given, mapping):
    """The file to use for a mapped one: that of its name, unless the core file has another build identifier there."""
    wanted = core.build_id_at(mapping.start) if mapping.offset == 0 else None
    name = without_mark(mapping.name)
    path = below(given.root, name)
    try:
        # Of a name that was deleted any build may be there by now.
        return file_of_build(path, wanted, name != mapping.name)
    except (OSError, Unused) as why:
        found = by_build_id(given.folders, wanted) if wanted else None
        if found:
            return found
        raise why if isinstance(why, Unused) else Unused(why.strerror) from None


def module_for(core, given, mapping):
    path = file_for(core, given, mapping)
    with opened(path) as file:
        if tables.is_debug(elf.sections(file)):
            raise Data("it is a debug file")
        found = elf.build_id_of(file)
        loads = sorted((it.offset, it.length, it.start) for it in elf.program_headers(file) if it.kind == elf.PT_LOAD)
    if len(loads) > MOST_LOADS:
        raise Unused(f"it has more than {MOST_LOADS} loaded segments")
    return Module(path, by_build_id(given.folders, found, ".debug") if found else None, loads)


def mapped_names(core):
    """The names of the mapped files with code, or one more than are tried, each with its first mapping: that of its header, where it is there."""
    code, found = core.names_with_code(MOST_NAMES + 1), {}
    for it in core.mappings:
        name = it[3]
        if name in code and (name not in found or it[2] == 0 < found[name][2]):
            found[name] = it
    return found


def find_modules(core, given):
    """The modules that are used, by the names in the core file. A line says of each other file with code why it isn't."""
    modules, named = {}, mapped_names(core)
    for name, fields in itertools.islice(named.items(), MOST_NAMES):
        mapping = core_file.Mapping(*fields)
        try:
            if len(modules) == MOST_FILES:
                raise Unused(f"a run takes {MOST_FILES} files")
            modules[name] = module_for(core, given, mapping)
        except (Unused, OSError, ValueError, OverflowError, struct.error) as why:
            # Locales, archives and fonts are mapped, too.
            if isinstance(why, Data) and not core.is_elf(mapping):
                continue
            print(common.shown(f"unused {text_of(name)}: {why}"), file=sys.stderr)
    if len(named) > MOST_NAMES:
        print(f"unused other files: the core file has more than {MOST_NAMES}", file=sys.stderr)
    return modules


class Run:
    """A run of `sf_tool procbacktrace` in a folder of links. A link to each file has the last parts of the name that the process had for it."""

    def __init__(self, given, modules, room):
        self.room, self.words, self.names = room, [], {}
        self.core = self.link(given.core, "core")
        for at, (name, module) in enumerate(modules.items()):
            parts = [it for it in text_of(without_mark(name)).split("/") if it][-MOST_PARTS:]
            with contextlib.suppress(OSError):
                word = self.link(module.path, str(at), *parts)
                word.encode()
                self.words.append(word)
                self.names[word] = text_of(name)

    def link(self, path, *parts):
        to = os.path.join(self.room, *parts)
        os.makedirs(os.path.dirname(to), exist_ok=True)
        os.symlink(os.path.abspath(path), to)
        return to

    def start(self, given, to):
        """Writes the stacks to a file, and what is said to standard error. Returns the status."""
        words = [given.tool, "procbacktrace", self.core, str(given.depth), *self.words]
        ran = subprocess.run(words, stdin=subprocess.DEVNULL, stdout=to, stderr=subprocess.PIPE, check=False)
        for line in ran.stderr.decode(errors="surrogateescape").splitlines():
            print(common.shown(self.said(line, given.core)), file=sys.stderr)
        return ran.returncode

    def said(self, line, core):
        """A line of standard error with the names that the process had."""
        item = ITEM.match(line)
        if item and 1 <= int(item[1]) <= len(self.words):
            line += f": {self.names[self.words[int(item[1]) - 1]]}"
        line = re.sub(re.escape(self.room) + r"/\d+(?=/)", "", line)
        return line.replace(self.core, core)


def frames(lines):
    """The lines of stacks, each with the address that names it, and how far the program counter is above that: none for a line that isn't a
    frame's."""
    is_exact = True
    for line in lines:
        line = line.rstrip("\n")
        frame = FRAME.match(line)
        if not frame:
            yield line, None, 0
            continue
        # The outermost frame was stopped there, and so was one that a signal interrupted. A signal's own function begins there.
        is_signal = line.endswith(" signal")
        is_exact = is_exact if frame[1] != "0" else True
        above = int(not is_exact and not is_signal)
        yield line, int(frame[2], 16) - above, above
        is_exact = is_signal


def address_in(core, modules, address):
    """The module at an address of the process, and the address in its file, or None."""
    mapping = core.mapping_at(address) if address is not None else None
    module = modules.get(mapping.name) if mapping else None
    if not module:
        return None
    place = address - mapping.start + mapping.offset
    at = bisect.bisect_right(module.segments, (place, 1 << 64)) - 1
    offset, length, start = module.segments[at] if at >= 0 else (0, 0, 0)
    return (mapping.name, start + place - offset) if place < offset + length else None


def name_all(core, modules, given, said):
    """The names of the addresses in the stacks, by module."""
    wanted, count = collections.defaultdict(set), 0
    for _, address, _ in frames(said):
        found = address_in(core, modules, address)
        if found and found[1] not in wanted[found[0]] and count < MOST_ADDRESSES:
            wanted[found[0]].add(found[1])
            count += 1
    names = {}
    for name, addresses in wanted.items():
        with contextlib.suppress(OSError, ValueError, OverflowError, struct.error):
            names[name] = symbols.Names(modules[name].path, modules[name].debug, sorted(addresses), given.lines)
    return names


def in_words(function, place):
    return f"{f' in {function}' if function else ''}{f' at {place}' if place else ''}"


def show(core, modules, names, said):
    """Prints the stacks with their names."""
    for line, address, above in frames(said):
        found = address_in(core, modules, address)
        named = names[found[0]].at(found[1], above) if found and found[0] in names else [("", "")]
        common.say(common.shown(line + in_words(*named[0])))
        for function, place in named[1:]:
            common.say(common.shown(f"      inlined{in_words(function, place)}"))


def walk(core, given):
    """Prints the stacks of an open core file. Returns the status."""
    modules = find_modules(core, given)
    if not modules:
        print(f"{NAME}: no file with code that the process had mapped can be used", file=sys.stderr)
        return REFUSED
    with tempfile.TemporaryDirectory(prefix=f"{NAME}-") as room, open(os.path.join(room, "said"), "w+", encoding="utf-8", errors="surrogateescape") as said:
        status = Run(given, modules, room).start(given, said)
        said.seek(0)
        names = name_all(core, modules, given, said)
        said.seek(0)
        show(core, modules, names, said)
    return status


def depth(word):
    if int(word) not in DEPTHS:
        raise ValueError
    return int(word)


def main(words):
    parser = common.parser(__name__, __doc__)
    parser.prog = NAME
    parser.add_argument("--depth", metavar="N", type=depth, default=64, help="the most frames of a thread, 1 to 1024; by default 64")
    parser.add_argument("--root", metavar="DIR", default="/", help="the folder that was / for the process")
    parser.add_argument("--build-ids", metavar="DIR", action="append", default=[], help="a folder with files by their build identifiers")
    parser.add_argument("--no-lines", dest="lines", action="store_false", help="addr2line isn't run")
    parser.add_argument("--tool", metavar="PROGRAM", help="in place of the sf_tool beside this script or on PATH")
    parser.add_argument("core", metavar="CORE")
    given = parser.parse_args(words)
    for stream in (sys.stdout, sys.stderr):
        stream.reconfigure(errors="backslashreplace")
    given.tool, given.root = program.beside(NAME, given.tool), os.path.realpath(given.root)
    given.folders = [*given.build_ids, *(os.path.join(given.root, it) for it in FOLDERS)]
    try:
        if not stat.S_ISREG(os.stat(given.core).st_mode):
            raise core_file.NotCore("it is no regular file")
        with open(given.core, "rb") as file:
            return walk(core_file.Core(file), given)
    except (core_file.NotCore, OSError) as why:
        print(common.shown(f"{NAME}: {given.core}: {why}"), file=sys.stderr)
        return REFUSED
