"""Writes an .eh_frame section for AMD64 that lies at 0x40000000, or a core file.

    python3 -m kiblawen.made OUT functions N     N functions of 16 bytes from 0x1000 on, each with four rows
    python3 -m kiblawen.made OUT rows N          one function at 0x1000 with N rows
    python3 -m kiblawen.made OUT threads N       a core file of N threads, each deep in calls of the function at 0x1000 of 6 bytes
    python3 -m kiblawen.made OUT process N       a core file of 4096 threads, each deep in calls from one of N shared objects to another, and these: OUT.0 and on
"""

import os
import struct
import sys

from kiblawen import inputs

SECTION, FIRST = 0x40000000, 0x1000


def fde(place, start, size, instructions):
    """The entry at this place of the section; the CIE lies at 0."""
    return inputs.record(place + 4, struct.pack("<iIB", start - (SECTION + place + 8), size, 0) + instructions)


# A row after each of push rbp; mov rbp, rsp; .. pop rbp.
FRAME = bytes([0x41, 0x0E, 16, 0x86, 2, 0x43, 0x0D, 6, 0x4A, 0xC6, 0x0C, 7, 8])


def functions(count):
    place = yield inputs.record(0, inputs.CIE)
    for number in range(count):
        place = yield fde(place, FIRST + 16 * number, 16, FRAME)


def rows(count):
    # The CFA's offset goes up and down by 8, with each byte.
    step = [bytes([0x41, 0x0E, 16]), bytes([0x41, 0x0E, 8])]
    place = yield inputs.record(0, inputs.CIE)
    yield fde(place, FIRST, count, b"".join(step[it % 2] for it in range(count - 1)))


def threads(count):
    """A core file: its header, two segments, the threads' notes, and a stack of return addresses."""
    return inputs.core([(inputs.PT_NOTE, 0, inputs.threads(count)), inputs.stack()])


def process(out, count):
    """A core file and its shared objects, as contents by name. Each of these has 1000 functions of 16 bytes and of one row."""
    name = os.path.basename(out)
    loaded = [((at + 1) << 28, b"%s.%d" % (name.encode(), at)) for at in range(count)]
    # An address in each, one after the other, in another function each time.
    called = [loaded[at % count][0] + 0x1005 + 16 * (at * 7 % 1000) for at in range(70000)]
    notes = inputs.mapped([(start, start + 0x200000, it) for start, it in loaded])
    notes += b"".join(inputs.thread(pid, called[pid], 0x7010 + 128 * pid) for pid in range(1, 4097))
    # A start counts from its own field.
    module = inputs.module_of(inputs.apart(1000, 0x1000 - 0x100000))
    files = {out: inputs.core([(inputs.PT_NOTE, 0, notes), (inputs.PT_LOAD, 0x7000, struct.pack("<70000Q", *called))])}
    files.update(("%s.%d" % (out, at), module) for at in range(count))
    return files


def main(out, what, count):
    if what == "process":
        for name, content in process(out, int(count)).items():
            with open(name, "wb") as file:
                file.write(content)
        return
    if what == "threads":
        with open(out, "wb") as file:
            file.write(threads(int(count)))
        return
    made, place = {"functions": functions, "rows": rows}[what](int(count)), 0
    with open(out, "wb") as file:
        piece = next(made)
        while piece:
            place += file.write(piece)
            try:
                piece = made.send(place)
            except StopIteration:
                piece = None
        file.write(bytes(4))


if __name__ == "__main__":
    main(*sys.argv[1:])
