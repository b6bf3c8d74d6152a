"""Tries the Python module of the C library: on a made section, and on the stack of a core file beside `sf_tool walk`.

    PYTHONPATH=python KIBLAWEN_LIBRARY=LIBRARY python3 .ci/c-library.py SF_TOOL

Prints what was wrong, and a line with the counts. `.ci/c-library` runs it. The core file needs a C compiler and gdb. The module's `link` is
tried if KIBLAWEN_LINK_LIBRARY names its library.
"""

import array
import itertools
import os
import re
import shutil
import struct
import subprocess
import sys
import tempfile
import threading

import kiblawen
from kiblawen import Base, Fault, Frame, Key, Module, Modules, Refused, Sample, Section, State, Stop

# Where a table of the core file's program is, above the program.
AT = 0x2000000
# An AMD64 function at 0x1000 that pushes its frame pointer, for a section at 0x3000: as in c-library.c.
PUSHING = bytes.fromhex(
    "e2de02050300f80001000000040000000f0000000000000014000000e4dfffff060000000000000004000000000000000003080105"
    "10f0040410f0050508f0"
)
# Two frames of it at 0x7000: a saved frame pointer and a return address, and then zeros.
STACK = struct.pack("<QQQQ", 0x7010, 0x1005, 0, 0)
SAMPLE = Sample(pc=0x1004, sp=0x6FF0, fp=0x7000, stack=STACK, stack_start=0x7000)
FRAMES = [Frame(0x1004, 0x7010), Frame(0x1005, 0x7020), Frame(0, 0)]
DEEP = """
#include <stdlib.h>
static __attribute__((noinline)) int deep(int n)
{
    volatile char room[n % 8 + 1];
    room[n % 8] = 1;
    if (n == 0)
        abort();
    return deep(n - 1) + room[n % 8];
}
int main(void) { return deep(20); }
"""
NT_PRSTATUS, PT_LOAD, PT_NOTE = 1, 1, 4
# Where the registers of AMD64 are in NT_PRSTATUS, and which of them are rbp, rip and rsp.
REGISTERS, RBP, RIP, RSP = 112, 4, 16, 19

tried = wrong = 0


def check(what, passed):
    global tried, wrong
    tried += 1
    if not passed:
        wrong += 1
        print(f"c-library: the Python module: {what}")


def refusal(content, at):
    try:
        Section(content, at)
    except Refused as refused:
        return refused.fault, refused.place
    return None


def try_made():
    section = Section(PUSHING, 0x3000)
    row = section.find(0x1004)
    check("a row", row == (0x1000, 6, 0, 4, Base.FP, 16, -8, -16, Key.UNSIGNED) and row.cfa_offset == 16)
    check("no row", section.find(0xFFF) is None and section.find(0x1006) is None and section.most_rows() == 4)
    check("a caller", section.recover(SAMPLE) == (0x7010, 0x1005, 0x7010, Key.UNSIGNED))
    check("a caller that can't be read", section.recover(SAMPLE._replace(stack=b"")) == (0x7010, None, None, Key.UNSIGNED))
    check("no caller", section.recover(SAMPLE._replace(pc=0x2000)) is None)
    check("a walk", section.walk(SAMPLE) == (FRAMES, Stop.OUTSIDE, 2**64 - 1))
    check("a walk of two frames", section.walk(SAMPLE, 2) == (FRAMES[:2], Stop.ROOM, 0))
    check("a walk of no frames", section.walk(SAMPLE, 0) == ([], Stop.ROOM, 0))
    check("a short stack", section.walk(SAMPLE._replace(stack=STACK[:15])) == (FRAMES[:1], Stop.UNREADABLE, 0x7008))
    check("faults", refusal(b"", 0) == (Fault.SHORT, 0) and refusal(PUSHING[:2] + b"\1" + PUSHING[3:], 0x3000) == (Fault.VERSION, 2))
    modules = Modules([Module(0x2000, 0x1000, None), Module(0x1000, 0x1000, section)])
    check("modules", modules.walk(SAMPLE) == (FRAMES, Stop.OUTSIDE, 2**64 - 1))
    check("a module without a section", modules.walk(SAMPLE._replace(pc=0x2000)) == ([Frame(0x2000, 0)], Stop.OUTSIDE, 0x2000))
    try_walking_on(section)
    try_numbers(section)
    try_contents(section)
    try_growing(section)
    try_order(section)
    check("no modules", Modules([]).walk(SAMPLE) == ([Frame(0x1004, 0)], Stop.OUTSIDE, 0x1004))
    try:
        Modules([Module(0x1000, 0x1001, section), Module(0x2000, 1, section)])
        check("modules that overlap", False)
    except ValueError:
        check("modules that overlap", True)
    with section:
        pass
    check("a closed section", section.find(0x1004) is None and section.most_rows() == 0)


def try_walking_on(section):
    module = Module(0x1000, 0x1000, section)
    modules = Modules([Module(0x2000, 0x1000, None), module])
    first, second = (0x1004, 0x7010, module), (0x1005, 0x7020, module)
    end = State(0, 0x7020, 0, 0, False, True)
    for _ in range(2):
        check("a walk that goes on", modules.walk_on(SAMPLE) == ([first, second, (0, 0, None)], Stop.OUTSIDE, 2**64 - 1, end))
    one = modules.walk_on(SAMPLE, room=1)
    check("one frame of it", one == ([first], Stop.ROOM, 0, State(0x1005, 0x7010, 0x7010, 0x1005, False, True)))
    check("the rest of it", modules.walk_on(SAMPLE, one.state) == ([second, (0, 0, None)], Stop.OUTSIDE, 2**64 - 1, end))
    ending = SAMPLE._replace(pc=0x1001, sp=0x7000, stack=STACK[8:], stack_start=0x7008)
    unknown = State(0x1005, 0x7010, 0x7000, 0x1005, True, True)
    check("an unknown frame pointer", modules.walk_on(ending) == ([(0x1001, 0x7010, module), (0x1005, 0, module)], Stop.UNREADABLE, 0x7000, unknown))
    check("no modules to walk on in", Modules([]).walk_on(SAMPLE).frames == [(0x1004, 0, None)])


def answer(call, *words, **named):
    """What a call returns, or the type of what it raises."""
    try:
        return call(*words, **named)
    except (ArithmeticError, BufferError, TypeError, ValueError) as error:
        return type(error)


def try_numbers(section):
    """Each argument that is a number, at the ends of its range and beyond them."""
    modules = Modules([Module(0x1000, 0x1000, section)])
    walks = {"walk": section.walk, "walk of modules": modules.walk, "walk_on": modules.walk_on}
    for what, walk in walks.items():
        for room in (-1, -2, -(2**31), -(2**63), -(2**64), 2**60, 2**63, 2**64):
            check(f"{what} with room {room}", answer(walk, SAMPLE, room=room) is ValueError)
        check(f"{what} with room 0", walk(SAMPLE, room=0).frames == [])
        for field in ("pc", "sp", "fp", "lr", "mask", "stack_start"):
            for number in (0, 1, 2**63, 2**64 - 1):
                check(f"{what} with {field} {number:#x}", isinstance(answer(walk, SAMPLE._replace(**{field: number})), tuple))
            for number in (-1, -(2**63), 2**64, 2**65 + 0x1004):
                check(f"{what} with {field} {number:#x}", answer(walk, SAMPLE._replace(**{field: number})) is ValueError)
    for number in (-1, 2**64, 2**64 + 0x1004):
        check(f"find at {number:#x}", answer(section.find, number) is ValueError)
        check(f"recover at {number:#x}", answer(section.recover, SAMPLE._replace(pc=number)) is ValueError)
        check(f"a section at {number:#x}", answer(Section, PUSHING, number) is ValueError)
        check(f"a module at {number:#x}", answer(Modules, [Module(number, 1, section)]) is ValueError)
        check(f"a module of {number:#x} bytes", answer(Modules, [Module(1, number, section)]) is ValueError)
        for field in ("pc", "sp", "fp", "lr"):
            state = State(0x1004, 0x6FF0, 0x7000)._replace(**{field: number})
            check(f"a state with {field} {number:#x}", answer(modules.walk_on, SAMPLE, state) is ValueError)
        if "KIBLAWEN_LINK_LIBRARY" in os.environ:
            check(f"a file loaded at {number:#x}", answer(kiblawen.link, "/bin/sh", number) is ValueError)
    check("a module at the last address", Modules([Module(2**64 - 1, 1, section)]).walk(SAMPLE._replace(pc=2**64 - 1)).frames == [Frame(2**64 - 1, 0)])


def try_contents(section):
    """The same bytes as each kind of object that has bytes, and objects that have none."""

    def kinds(content):
        yield from (content, bytearray(content), memoryview(content), array.array("B", content), memoryview(bytes(2 * len(content)))[::2])
        for code in "HIQ":
            padded = content + bytes(-len(content) % 8)
            yield from (array.array(code, padded), memoryview(array.array(code, padded)), memoryview(padded).cast(code))

    def named(content):
        return f"{type(content).__name__} of {memoryview(content).format}"

    walk = section.walk(SAMPLE)
    for stack in kinds(STACK):
        expected = walk if bytes(stack) == STACK else section.walk(SAMPLE._replace(stack=bytes(len(STACK))))
        check(f"a stack as {named(stack)}", section.walk(SAMPLE._replace(stack=stack)) == expected)
    for content in kinds(PUSHING):
        check(f"a section as {named(content)}", refusal(content, 0x3000) == refusal(bytes(content), 0x3000))
    for content, error in ((0, ValueError), (64, ValueError), (-1, ValueError), (None, TypeError), ("text", TypeError)):
        check(f"a stack that is {content!r}", answer(section.walk, SAMPLE._replace(stack=content)) is error)
        check(f"a section that is {content!r}", answer(Section, content, 0) is error)


def try_growing(section):
    """A stack that another thread makes longer and shorter meanwhile: each walk is that of the one or the other."""
    stack, is_over = bytearray(STACK), threading.Event()

    def change():
        while not is_over.is_set():
            stack.extend(bytes(1 << 16))
            del stack[len(STACK) :]

    interval, thread = sys.getswitchinterval(), threading.Thread(target=change)
    sys.setswitchinterval(1e-6)
    thread.start()
    walks = [section.walk(SAMPLE._replace(stack=stack)) for _ in range(2000)]
    is_over.set()
    thread.join()
    sys.setswitchinterval(interval)
    check("a stack that grows", all(walk == (FRAMES, Stop.OUTSIDE, 2**64 - 1) for walk in walks))


def try_order(section):
    """Empty modules that share a start, in each order."""
    for modules in itertools.permutations([Module(0x1000, 0x1000, section), Module(0x1000, 0, None), Module(0x1000, 0, None)]):
        found = answer(Modules, modules)
        check("empty modules", isinstance(found, Modules) and found.walk(SAMPLE).frames == FRAMES and found.walk_on(SAMPLE).frames[0].module.size == 0x1000)


def read_core(path):
    """The sample of a core file's thread on AMD64, with its stack."""
    with open(path, "rb") as file:
        content = file.read()
    place, count = struct.unpack_from("<Q", content, 32)[0], struct.unpack_from("<H", content, 56)[0]
    headers = [struct.unpack_from("<IIQQQQQQ", content, place + 56 * it) for it in range(count)]
    at, kind = next(offset for kind, _, offset, *_ in headers if kind == PT_NOTE), None
    while kind != NT_PRSTATUS:
        name, length, kind = struct.unpack_from("<III", content, at)
        note = at + 12 + (name + 3 & -4)
        at = note + (length + 3 & -4)
    registers = struct.unpack_from("<27Q", content, note + REGISTERS)
    sp = registers[RSP]
    for kind, _, offset, start, _, length, _, _ in headers:
        if kind == PT_LOAD and start <= sp < start + length:
            return Sample(registers[RIP], sp, registers[RBP], content[offset + sp - start : offset + length])
    return None


def try_core(tool, room):
    source, program, core = (os.path.join(room, it) for it in ("deep.c", "deep", "core"))
    with open(source, "w", encoding="utf-8") as file:
        file.write(DEEP)
    quiet = {"stdin": subprocess.DEVNULL, "stdout": subprocess.DEVNULL, "stderr": subprocess.DEVNULL}
    cc = (os.environ.get("CC") or "cc").split()
    if os.uname().machine == "x86_64" and shutil.which("gdb"):
        subprocess.run([*cc, "-O1", "-static", "-no-pie", "-o", program, source], check=False, **quiet)
        words = ["set confirm off", "run", f"generate-core-file {core}"]
        subprocess.run(["gdb", "-nx", "-batch", *(it for word in words for it in ("-ex", word)), program], check=False, **quiet)
    if not os.path.exists(core):
        print("c-library: the Python module is not tried on a core file: that needs AMD64, gdb, a C compiler and a static C library")
        return
    table = os.path.join(room, "table")
    said = subprocess.run([tool, "link", f"{table}@{AT:#x}", f"{program}@0x0"], stdout=subprocess.DEVNULL, check=False).returncode
    with open(table, "rb") as file:
        section = Section(file.read(), AT)
    sample = read_core(core)
    walk = section.walk(sample)
    shown = subprocess.run([tool, "walk", f"{table}@{AT:#x}", core, "64"], stdout=subprocess.PIPE, check=False).stdout.decode()
    expected = [int(it, 16) for it in re.findall(r"#\d+ pc (0x\w+)", shown)]
    check("the frames of `sf_tool walk`", said == 0 and len(expected) > 20 and [it.pc for it in walk.frames] == expected)
    check("the stop of `sf_tool walk`", f"stop {walk.stop.name.lower()} {walk.value:#x}" in shown)
    on = Modules([Module(0, AT, section)]).walk_on(sample)
    check("the same by modules", [(it.pc, it.cfa) for it in on.frames] == walk.frames and on.stop == walk.stop)
    if "KIBLAWEN_LINK_LIBRARY" in os.environ:
        try_link(tool, room, source, program, sample, walk.frames)
    else:
        print("c-library: the Python module's link is not tried: libkiblawen_link is not built")


def try_link(tool, room, source, program, sample, frames):
    """What the module makes of a program, beside what `sf_tool` makes."""
    module = kiblawen.module(program, 0)
    for command in ("linkplt", "link"):
        ran = subprocess.run([tool, command, f"{room}/linked@{module.size:#x}", f"{program}@0x0"], stdout=subprocess.PIPE, check=False)
        check(f"the report of {command}", ran.returncode == 0 and kiblawen.link(program, 0, command).report == ran.stdout.decode())
    check("the frames by link", kiblawen.link(program).walk(sample).frames == frames)
    try:
        kiblawen.link(source)
        check("a file that is no program", False)
    except ValueError:
        check("a file that is no program", True)


def main():
    try_made()
    with tempfile.TemporaryDirectory() as room:
        try_core(os.path.abspath(sys.argv[1]), room)
    print(f"c-library: the Python module: {tried} tried, {wrong} wrong")
    return int(wrong > 0)


sys.exit(main())
