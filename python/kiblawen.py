"""SFrame Version 2 sections in Python: checks them, looks up addresses, and walks samples, by the C library libkiblawen.so.0.

    import kiblawen
    section = kiblawen.link("/usr/bin/prog", load=0x555555554000)    makes the section of a file, and opens it
    section = kiblawen.Section(content, at)                          opens a section's bytes
    section.find(pc)                                                 a Row, or None
    section.walk(kiblawen.Sample(pc, sp, fp, stack))                 a Walk: its frames, and why it stopped
    modules = kiblawen.Modules([kiblawen.Module(start, size, section), ..])
    modules.walk(sample)                                             the same with the sections of a process
    modules.walk_on(sample)                                          the same past unknown frame pointers, with modules and a state to resume from

The library is $KIBLAWEN_LIBRARY, or is installed with this file, or is found by the dynamic linker. `link` loads libkiblawen_link.so.0
($KIBLAWEN_LINK_LIBRARY) in the same way, when it is first called. kiblawen.h and kiblawen-link.h
describe the calls of the libraries. What these return is proved; this file is tested, and not proved. Several threads may use one section,
while none closes it.
"""

import collections
import ctypes
import enum
import functools
import os
import struct
import sys
import threading

__all__ = [
    "Answer", "Base", "Caller", "Fault", "Frame", "Key", "Module", "ModuleFrame", "Modules", "NotMade", "Refused", "Row", "Sample", "Section",
    "State", "Stop", "Walk", "WalkOn", "link", "module",
]

NAME, LINK_NAME = "libkiblawen.so.0", "libkiblawen_link.so.0"
PAGE, PT_LOAD = 4096, 1
ENTRIES = 2048
# The names of the reasons for which a function is omitted, by the numbers of kiblawen-link.h.
REASONS = (
    "", "EmptyRange", "SizeTooLarge", "ReturnColumn", "SignalFrame", "NoCfa", "CfaExpression", "CfaRegister", "CfaOffset", "SpRule",
    "RaRule", "RaOffset", "FpRule", "FpOffset", "FpWithoutRa", "SignState",
)


class Fault(enum.IntEnum):
    """Why a section is refused, by the names of kiblawen.h."""

    SHORT = 1
    MAGIC = 2
    VERSION = 3
    FLAGS = 4
    ABI = 5
    FIXED_OFFSET = 6
    LAYOUT = 7
    COUNT = 8
    ROW_TYPE = 9
    RESERVED = 10
    REPEAT_ZERO = 11
    OFFSET_COUNT = 12
    OFFSET_SIZE = 13
    ROW_ORDER = 14
    UNSORTED = 15
    OVERLAP = 16
    ADDRESS_RANGE = 17
    TOO_MANY_FUNCTIONS = 18
    TOO_MANY_ROWS = 19


class Refused(ValueError):
    """A section that is refused, with its first fault and the fault's place."""

    def __init__(self, fault, place):
        super().__init__(f"{fault.name} at {place:#x}")
        self.fault, self.place = fault, place


class Answer(enum.IntEnum):
    """What a call that makes a section returns, by the names of kiblawen-link.h."""

    MADE = 0
    NO_ROOM = 1
    REFUSED = 2
    OVER_FUNCTIONS = 3
    OVER_ROWS = 4
    NO_MEMORY = 5
    UNFIT = 6


class NotMade(ValueError):
    """A file of which no section is made: the call's answer, and the group and number of the fault (docs/messages.md)."""

    def __init__(self, path, answer, group, number):
        super().__init__(f"{path}: {answer.name}" + (f", group {group}, number {number}" if group else ""))
        self.answer, self.group, self.number = answer, group, number


class Base(enum.IntEnum):
    """The register that a canonical frame address counts from."""

    FP = 0
    SP = 1


class Key(enum.IntEnum):
    """The key that signs a return address."""

    UNSIGNED = 0
    A = 1
    B = 2


class Stop(enum.IntEnum):
    """Why a walk stopped."""

    ROOM = 0
    OUTSIDE = 1
    UNREADABLE = 2
    SIGNED = 3


# A function and its row. `ra_offset` is None if the return address is in the link register, `fp_offset` if the frame pointer is unchanged.
Row = collections.namedtuple("Row", "function_start function_size block_size row_start base cfa_offset ra_offset fp_offset key")
# A caller's frame. `ra` and `fp` are None if they can't be read.
Caller = collections.namedtuple("Caller", "cfa ra fp key")
# A frame of a walk. `cfa` is 0 if no row holds.
Frame = collections.namedtuple("Frame", "pc cfa")
# The frames of a walk, why it stopped, and the value that this names.
Walk = collections.namedtuple("Walk", "frames stop value")
# A frame of `walk_on`, and the Module that has its address, or None. `cfa` is 0 if it isn't known.
ModuleFrame = collections.namedtuple("ModuleFrame", "pc cfa module")
# Where a walk is. `fp` is the address where the frame pointer was to be read, if it is unknown. A call returns to `pc` if `returned`.
State = collections.namedtuple("State", "pc sp fp lr fp_unknown returned", defaults=(0, False, False))
# The frames of a walk, why it stopped, the value that this names, and where it is.
WalkOn = collections.namedtuple("WalkOn", "frames stop value state")
# A file of a process: its addresses, and its section or None.
Module = collections.namedtuple("Module", "start size section")
# A stopped thread. `stack` is a copy of its stack, any object with bytes, from `stack_start` on, or from `sp` on if that is None. `mask` is
# None if it isn't known.
Sample = collections.namedtuple("Sample", "pc sp fp stack stack_start lr mask", defaults=(b"", None, 0, None))


def _struct(name, **fields):
    return type(name, (ctypes.Structure,), {"_fields_": list(fields.items())})


_u32, _i32, _u64, _size = ctypes.c_uint32, ctypes.c_int32, ctypes.c_uint64, ctypes.c_size_t
_bytes = ctypes.POINTER(ctypes.c_uint8)
_Section = _struct("kiblawen_section", bytes=_bytes, len=_size, at=_u64, is_open=ctypes.c_bool)
_Row = _struct(
    "kiblawen_row", function_start=_u64, function_size=_u32, block_size=_u32, row_start=_u32, base=_u32, cfa_offset=_i32,
    ra_saved=_u32, ra_offset=_i32, fp_saved=_u32, fp_offset=_i32, key=_u32,
)
_Sample = _struct(
    "kiblawen_sample", pc=_u64, sp=_u64, fp=_u64, lr=_u64, mask=_u64, has_mask=_u32, stack=_bytes, stack_len=_size, stack_start=_u64
)
_Caller = _struct("kiblawen_caller", cfa=_u64, ra=_u64, fp=_u64, ra_known=_u32, fp_known=_u32, key=_u32)
_Frame = _struct("kiblawen_frame", pc=_u64, cfa=_u64)
_Stop = _struct("kiblawen_stop", kind=_u32, value=_u64)
_Module = _struct("kiblawen_module", start=_u64, size=_u64, section=_Section)
_to = ctypes.POINTER
_Modules = _struct("kiblawen_modules", list=_to(_Module), count=_size, order=_to(_size), order_count=_size)
_Cache = _struct(
    "kiblawen_cache", address=_u64, module=_size, cfa_offset=_i32, ra_offset=_i32, fp_offset=_i32,
    **{it: ctypes.c_bool for it in ("is_used", "has_row", "counts_from_fp", "ra_saved", "fp_saved", "is_signed")},
)
_State = _struct("kiblawen_state", pc=_u64, sp=_u64, fp=_u64, lr=_u64, fp_unknown=_u32, returned=_u32)
_ModuleFrame = _struct("kiblawen_module_frame", pc=_u64, cfa=_u64, module=_size)
_Input = _struct("kiblawen_input", bytes=ctypes.c_char_p, len=_size, base=_u64, kind=_u32)
_Omission = _struct(
    "kiblawen_omission", start=_u64, size=_u64, input=_u32, section=_u32, place=_u32, reason=_u32, has_offset=_u32, offset=_u32
)
_Plt = _struct("kiblawen_plt", start=_u64, size=_u64, input=_u32, section=_u32, place=_u32)
_Refusal = _struct("kiblawen_refusal", group=_u32, number=_u32, has_input=_u32, input=_u32, values=_u64 * 4)
_Linked = _struct("kiblawen_linked", len=_size, functions=_u32, omitted=_size, plts=_size, why=_Refusal)
_LINK_CALLS = {
    "kiblawen_link": (_u32, _to(_Input), _size, _u64, _bytes, _size, _to(_Omission), _size, _to(_Linked)),
    "kiblawen_linkplt": (_u32, _to(_Input), _size, _u64, _bytes, _size, _to(_Omission), _size, _to(_Plt), _size, _to(_Linked)),
}
_CALLS = {
    "kiblawen_open": (_u32, _to(_Section), _bytes, _size, _u64, _to(_u64)),
    "kiblawen_close": (None, _to(_Section)),
    "kiblawen_most_rows": (_u32, _to(_Section)),
    "kiblawen_find": (ctypes.c_bool, _to(_Section), _u64, _to(_Row)),
    "kiblawen_recover": (ctypes.c_bool, _to(_Section), _to(_Sample), _to(_Caller)),
    "kiblawen_walk": (_size, _to(_Section), _to(_Sample), _to(_Frame), _size, _to(_Stop)),
    "kiblawen_in_order": (ctypes.c_bool, _to(_Module), _size),
    "kiblawen_walk_modules": (_size, _to(_Module), _size, _to(_Sample), _to(_Frame), _size, _to(_Stop)),
    "kiblawen_index": (ctypes.c_bool, _to(_Module), _size, _to(_size), _size),
    "kiblawen_cache_clear": (None, _to(_Cache), _size),
    "kiblawen_walk_on": (_size, _to(_Modules), _to(_Cache), _size, _to(_Sample), _to(_State), _to(_ModuleFrame), _size, _to(_Stop)),
}


def _load(name, variable, calls):
    beside = os.path.join(os.path.dirname(os.path.abspath(__file__)), "..", "..", "..", "lib", name)
    library = ctypes.CDLL(os.environ.get(variable) or (beside if os.path.exists(beside) else name))
    for it, (result, *arguments) in calls.items():
        call = getattr(library, it)
        call.restype, call.argtypes = result, arguments
    return library


_library = _load(NAME, "KIBLAWEN_LIBRARY", _CALLS)


@functools.lru_cache(maxsize=None)
def _link_library():
    return _load(LINK_NAME, "KIBLAWEN_LINK_LIBRARY", _LINK_CALLS)


def _u64_of(number):
    """An address or a size. ctypes takes what doesn't fit, and cuts it off."""
    if not 0 <= number < 1 << 64:
        raise ValueError(f"{number:#x} doesn't fit 64 bits")
    return number


def _frames(kind, room):
    """An array of as many frames as there is room for, and of one if there is none, since C gets no null pointer."""
    if not 0 <= room <= sys.maxsize // ctypes.sizeof(kind):
        raise ValueError(f"there can't be room for {room} frames")
    return (kind * max(room, 1))()


def _copy(content):
    """A copy of some bytes that C can read, which is never null, and their number. The content is read once: another thread may change it."""
    if isinstance(content, int):
        raise ValueError("a number has no bytes")
    taken = bytes(content)
    return (ctypes.c_uint8 * (len(taken) + 1)).from_buffer_copy(taken + b"\0"), len(taken)


def _sample(given):
    """A sample as C has it. It refers to the copy of the stack, which ctypes keeps."""
    start = given.sp if given.stack_start is None else given.stack_start
    copy, length = _copy(given.stack)
    has_mask, mask = given.mask is not None, 0 if given.mask is None else given.mask
    pc, sp, fp, lr, mask, start = map(_u64_of, (given.pc, given.sp, given.fp, given.lr, mask, start))
    return _Sample(pc, sp, fp, lr, mask, has_mask, ctypes.cast(copy, _bytes), length, start)


def _walk(call, sample, room):
    frames, stop = _frames(_Frame, room), _Stop()
    count = call(ctypes.byref(_sample(sample)), frames, room, ctypes.byref(stop))
    return Walk([Frame(it.pc, it.cfa) for it in frames[:count]], Stop(stop.kind), stop.value)


class Section:
    """An open section. It keeps a copy of the bytes."""

    def __init__(self, content, at):
        """Opens the bytes of a section that is at this address, or would be. Raises Refused with the first fault."""
        (self._copy, length), place = _copy(content), _u64()
        self._section = _Section(self._copy, 0, 0, False)
        fault = _library.kiblawen_open(ctypes.byref(self._section), self._copy, length, _u64_of(at), ctypes.byref(place))
        if fault:
            raise Refused(Fault(fault), place.value)
        # What `link` printed of the file.
        self.report = ""

    def close(self):
        """Closes the section. It has no functions from now on."""
        _library.kiblawen_close(ctypes.byref(self._section))

    def __enter__(self):
        return self

    def __exit__(self, *_):
        self.close()

    def most_rows(self):
        """Returns the largest number of rows of any function."""
        return _library.kiblawen_most_rows(ctypes.byref(self._section))

    def find(self, pc):
        """Returns the function and row that hold at an address, or None."""
        it = _Row()
        if not _library.kiblawen_find(ctypes.byref(self._section), _u64_of(pc), ctypes.byref(it)):
            return None
        ra, fp = it.ra_offset if it.ra_saved else None, it.fp_offset if it.fp_saved else None
        return Row(it.function_start, it.function_size, it.block_size, it.row_start, Base(it.base), it.cfa_offset, ra, fp, Key(it.key))

    def recover(self, sample):
        """Returns the caller's frame of a sample, or None if no row holds."""
        it = _Caller()
        if not _library.kiblawen_recover(ctypes.byref(self._section), ctypes.byref(_sample(sample)), ctypes.byref(it)):
            return None
        return Caller(it.cfa, it.ra if it.ra_known else None, it.fp if it.fp_known else None, Key(it.key))

    def walk(self, sample, room=64):
        """Walks a sample, and returns at most `room` frames."""
        return _walk(lambda *rest: _library.kiblawen_walk(ctypes.byref(self._section), *rest), sample, room)


class Modules:
    """The files of a process."""

    def __init__(self, modules):
        """Takes modules in any order. Raises ValueError if two overlap."""
        self._kept = sorted(modules, key=lambda it: (it.start, it.size))
        self._nothing, _ = _copy(b"")
        closed = _Section(self._nothing, 0, 0, False)
        found = [_Module(_u64_of(it.start), _u64_of(it.size), it.section._section if it.section else closed) for it in self._kept]
        self._modules, self._count = (_Module * max(len(found), 1))(*found), len(found)
        order = (_size * max(len(found), 1))()
        if not _library.kiblawen_in_order(self._modules, self._count) or not _library.kiblawen_index(self._modules, self._count, order, self._count):
            raise ValueError("two modules overlap")
        self._indexed, self._own = _Modules(self._modules, self._count, order, self._count), threading.local()

    def walk(self, sample, room=64):
        """Walks a sample. Each frame is looked up in the section of the module that has its address."""
        return _walk(lambda *rest: _library.kiblawen_walk_modules(self._modules, self._count, *rest), sample, room)

    def walk_on(self, sample, state=None, room=64):
        """Walks on from a State, or from the sample's own registers, and returns a WalkOn. A frame pointer that can't be read is unknown."""
        if not hasattr(self._own, "cache"):
            self._own.cache = (_Cache * ENTRIES)()
            _library.kiblawen_cache_clear(self._own.cache, ENTRIES)
        given = state or State(sample.pc, sample.sp, sample.fp, sample.lr)
        at, frames, stop = _State(*map(_u64_of, given[:4]), *map(bool, given[4:])), _frames(_ModuleFrame, room), _Stop()
        count = _library.kiblawen_walk_on(
            ctypes.byref(self._indexed), self._own.cache, ENTRIES, ctypes.byref(_sample(sample)), ctypes.byref(at), frames, room, ctypes.byref(stop)
        )
        found = [ModuleFrame(it.pc, it.cfa, self._kept[it.module] if it.module < self._count else None) for it in frames[:count]]
        return WalkOn(found, Stop(stop.kind), stop.value, State(at.pc, at.sp, at.fp, at.lr, bool(at.fp_unknown), bool(at.returned)))


def _page_after(path):
    """Returns the first page after the last loaded byte of a 64-bit little-endian ELF file."""
    with open(path, "rb") as file:
        head = file.read(64)
        if len(head) < 64 or head[:6] != b"\x7fELF\x02\x01":
            raise ValueError(f"{path} is no 64-bit little-endian ELF file")
        (place,), (entry, count) = struct.unpack_from("<Q", head, 32), struct.unpack_from("<HH", head, 54)
        file.seek(place)
        headers = file.read(entry * count)
    found = (struct.unpack_from("<IIQQQQQQ", headers, at) for at in range(0, len(headers) - 55, max(entry, 56)))
    last = max((start + size for kind, _, _, start, _, _, size, _ in found if kind == PT_LOAD), default=0)
    return -(-last // PAGE) * PAGE


def _line(it):
    """The report's line of an omitted function or a procedure linkage table."""
    line = f"{it.start:#x} size {it.size} input {it.input} section {it.section} fde {it.place:#x}"
    if isinstance(it, _Plt):
        return f"plt {line}\n"
    return f"omit {line} {REASONS[it.reason]}{f' at {it.offset}' if it.has_offset else ''}\n"


class _Room:
    """The rooms for what a call makes: the section, and the functions and procedure linkage tables that its report names."""

    def __init__(self, section, omitted, plts):
        self.counts = section, omitted, plts
        self.section = (ctypes.c_uint8 * max(section, 1))()
        self.omitted = (_Omission * max(omitted, 1))()
        self.plts = (_Plt * max(plts, 1))()

    def call(self, command, content, at, linked):
        section, omitted, plts = self.counts
        words = [ctypes.byref(_Input(content, len(content), 0, 0)), 1, _u64_of(at), self.section, section, self.omitted, omitted]
        words += [self.plts, plts] if command == "linkplt" else []
        return Answer(getattr(_link_library(), f"kiblawen_{command}")(*words, ctypes.byref(linked)))

    def report(self, linked, command):
        plts = f" plt {linked.plts}" if command == "linkplt" else ""
        named = sorted((*self.plts[: linked.plts], *self.omitted[: linked.omitted]), key=lambda it: (it.start, it.input, it.section, it.place))
        return "".join(map(_line, named)) + f"kept {linked.functions} omitted {linked.omitted}{plts}\n"


def link(path, load=0, command="link"):
    """Makes the section of a program or shared object, and opens it for the address at which the file is loaded.

    The section's `report` is what `sf_tool link` prints. With the command `linkplt` plain lazy .plts have rows as well. Raises NotMade if the
    file is refused.
    """
    at, load = _page_after(path), _u64_of(load)
    with open(path, "rb") as file:
        content = file.read()
    # The first call says how much room is needed, where this isn't enough.
    linked, room = _Linked(), _Room(len(content) // 2, 4096, 16)
    answer = room.call(command, content, at, linked)
    if answer == Answer.NO_ROOM or linked.omitted > 4096 or linked.plts > 16:
        room = _Room(linked.len, linked.omitted, linked.plts)
        answer = room.call(command, content, at, linked)
    if answer != Answer.MADE:
        raise NotMade(path, answer, linked.why.group, linked.why.number)
    section = Section(bytes(room.section[: linked.len]), (load + at) % (1 << 64))
    section.report = room.report(linked, command)
    return section


def module(path, load, command="link"):
    """Makes the section of a file that is loaded at this address. Returns the file as a module."""
    return Module(load, _page_after(path), link(path, load, command))
