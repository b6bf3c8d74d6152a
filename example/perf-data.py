#!/usr/bin/env python3
"""Walks the samples of a file of perf with the library, beside perf's own unwinder, which has the same registers and the same stack.

    perf record --call-graph dwarf,32768 -e cpu-clock:u -o FILE COMMAND
    PYTHONPATH=python example/perf-data.py FILE [SF_TOOL]

For AMD64. SF_TOOL makes the tables of the files that were mapped, by default the one on PATH. Prints how many samples have the same frames,
and how many walks of the library ended early, by why they stopped and in which function. The status is 1 if a frame differs.
"""

import collections
import os
import re
import struct
import subprocess
import sys

import kiblawen

# Of perf_event_attr: where sample_type is. Of sample_type: the bits of the fields before the registers, and of these and the stack.
SAMPLE_TYPE_AT = 24
PLAIN = [1 << 16, 1 << 0, 1 << 1, 1 << 2, 1 << 3, 1 << 6, 1 << 9, 1 << 7, 1 << 8]
TIME, CALLCHAIN, REGS_USER, STACK_USER = 1 << 2, 1 << 5, 1 << 12, 1 << 13
UNKNOWN = 1 << 4 | 1 << 10 | 1 << 11
MMAP2, SAMPLE = 10, 9
# perf asks for all registers of AMD64 but ds, es, fs and gs. These are the indices of rbp, rsp and rip among them.
RBP, RSP, RIP = 6, 7, 8
PROT_EXEC = 4


def records(content):
    """The records of a file, and its sample_type."""
    if content[:8] != b"PERFILE2":
        sys.exit("perf-data.py: it is no file of perf")
    attributes, _, data, size = struct.unpack_from("<QQQQ", content, 24)
    sample_type, at = struct.unpack_from("<Q", content, attributes + SAMPLE_TYPE_AT)[0], data
    while at + 8 <= data + size:
        kind, _, length = struct.unpack_from("<IHH", content, at)
        yield sample_type, kind, content[at + 8 : at + length]
        at += max(length, 8)


def load_address(path, start, offset):
    """The load address of a file that is mapped at an address from this offset on, or None."""
    try:
        with open(path, "rb") as file:
            head = file.read(4096)
    except OSError:
        return None
    (place,), (entry, count) = struct.unpack_from("<Q", head, 32), struct.unpack_from("<HH", head, 54)
    page, loads = os.sysconf("SC_PAGESIZE"), []
    for at in range(place, min(place + entry * count, len(head) - 55), entry):
        kind, flags, first, address, _, length, _, _ = struct.unpack_from("<IIQQQQQQ", head, at)
        if kind == 1 and flags & 1 and first // page * page <= offset < -(-(first + length) // page) * page:
            loads.append((start - (address - first + offset)) % (1 << 64))
    # Pages of several segments may have the byte at this offset. Then it isn't known which one is mapped.
    return loads[0] if len(loads) == 1 else None


def sample_of(sample_type, record):
    """The time of a sample, and the sample."""
    at, time = 0, None
    for bit in (it for it in PLAIN if sample_type & it):
        time = struct.unpack_from("<Q", record, at)[0] if bit == TIME else time
        at += 8
    if sample_type & CALLCHAIN:
        at += 8 + 8 * struct.unpack_from("<Q", record, at)[0]
    abi = struct.unpack_from("<Q", record, at)[0]
    if not abi:
        return time, None
    registers = struct.unpack_from("<20Q", record, at + 8)
    size = struct.unpack_from("<Q", record, at + 168)[0]
    used = struct.unpack_from("<Q", record, at + 176 + size)[0] if size else 0
    return time, kiblawen.Sample(registers[RIP], registers[RSP], registers[RBP], record[at + 176 : at + 176 + used])


def read(path):
    """The samples of a file by time, the modules of its process, and what is mapped: (start, size, offset)."""
    samples, modules, mapped = {}, {}, []
    with open(path, "rb") as file:
        content = file.read()
    for sample_type, kind, record in records(content):
        if kind == SAMPLE:
            if sample_type & UNKNOWN or not sample_type & REGS_USER or not sample_type & STACK_USER:
                sys.exit("perf-data.py: record with --call-graph dwarf")
            time, sample = sample_of(sample_type, record)
            if sample:
                samples[time] = sample
        elif kind == MMAP2:
            start, size, offset = struct.unpack_from("<QQQ", record, 8)
            mapped.append((start, size, offset))
            name = record[64:].partition(b"\0")[0].decode()
            load = load_address(name, start, offset) if struct.unpack_from("<I", record, 56)[0] & PROT_EXEC else None
            if load is not None and (name, load) not in modules:
                modules[name, load] = kiblawen.module(name, load, "linkplt")
    return samples, kiblawen.Modules(modules.values()), mapped


def perf_stacks(path):
    """perf's own stacks by time: addresses and names."""
    words = ["perf", "script", "--no-inline", "--ns", "-F", "time,ip,sym", "-i", path]
    said = subprocess.run(words, stdout=subprocess.PIPE, stderr=subprocess.DEVNULL, check=True).stdout.decode(errors="replace")
    for part in said.split("\n\n"):
        time = re.match(r"\s*(\d+)\.(\d{9}):", part)
        if time:
            frames = re.findall(r"(?m)^\s+([0-9a-f]+) (.*)$", part)
            yield int(time[1] + time[2]), [(int(address, 16), name) for address, name in frames]


def is_same(ours, theirs, mapped):
    """Whether two frames are the same. perf shows an address, or its offset in the file, and for a caller also the address before."""
    places = [ours - start + offset for start, size, offset in mapped if start <= ours - 1 < start + size]
    return any(it in (theirs, theirs + 1) for it in [ours, *places])


def main():
    samples, modules, mapped = read(sys.argv[1])
    counts, early = collections.Counter(), collections.Counter()
    for time, theirs in perf_stacks(sys.argv[1]):
        if time not in samples:
            continue
        walk = modules.walk_on(samples[time], room=1024)
        ours = [it.pc for it in walk.frames]
        agree = all(is_same(one, other, mapped) for one, (other, _) in zip(ours, theirs))
        if not agree:
            counts["differ"] += 1
            print(f"differs at {time}: {[hex(it) for it in ours]}, perf {[hex(it) for it, _ in theirs]}")
        elif len(ours) < len(theirs):
            counts["end early"] += 1
            early[walk.stop.name, theirs[len(ours) - 1][1]] += 1
        else:
            counts["the same" if len(ours) == len(theirs) else "longer than perf's"] += 1
    print(f"{sum(counts.values())} samples:", ", ".join(f"{count} {what}" for what, count in counts.most_common()))
    for stop in kiblawen.Stop:
        names = collections.Counter({name: count for (kind, name), count in early.items() if kind == stop.name})
        if names:
            print(f"{sum(names.values())} {stop.name}:", ", ".join(f"{count} {name}" for name, count in names.most_common(8)))
    return int(counts["differ"] > 0)


sys.exit(main())
