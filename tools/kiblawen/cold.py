"""Commands that read a file of which no page is in memory.

Before each run the pages of the file are dropped, and those that stay are counted by mincore(2). A file system that has its files in memory, such
as tmpfs, drops none: there nothing can be measured.
"""

import ctypes
import mmap
import os
import time

from kiblawen.measure import ROUNDS


def in_memory(path):
    """Returns how many pages of a file are in memory, and how many it has."""
    with open(path, "rb") as file, mmap.mmap(file.fileno(), 0, access=mmap.ACCESS_COPY) as mapped:
        flags = (ctypes.c_ubyte * -(-len(mapped) // mmap.PAGESIZE))()
        first = ctypes.c_char.from_buffer(mapped)
        status = ctypes.CDLL(None).mincore(ctypes.c_void_p(ctypes.addressof(first)), ctypes.c_size_t(len(mapped)), flags)
        # The mapping can't be closed before this.
        del first
    if status != 0:
        raise OSError("mincore failed")
    return sum(it & 1 for it in flags), len(flags)


def drop(path):
    """Drops the pages of a file from memory. Raises OSError if some of them stay."""
    if not hasattr(os, "posix_fadvise"):
        raise OSError("there is no posix_fadvise")
    with open(path, "rb") as file:
        # A page that the disk doesn't have yet would stay.
        os.fsync(file.fileno())
        os.posix_fadvise(file.fileno(), 0, 0, os.POSIX_FADV_DONTNEED)
    left, count = in_memory(path)
    if left:
        raise OSError(f"{left} of its {count} pages stay there")


def measure(commands, path, out):
    """Measures these commands, which read this file, in turn. Returns the least processor time and the least time in all by name, in seconds.
    Raises OSError if the file's pages can't be dropped."""
    least = {it.name: (float("inf"), float("inf")) for it in commands}
    for _ in range(ROUNDS):
        for command in commands:
            drop(path)
            began = time.perf_counter()
            busy = command.run(out)
            took = time.perf_counter() - began
            least[command.name] = tuple(map(min, least[command.name], (busy, took)))
    return least
