"""Prints where the section of an ELF file may lie, AT: the first page after its last loaded byte.

    ./x at FILE              AT, as in `sf_tool link OUT@AT FILE@0x0`
    ./x at --build-id FILE   the build identifier of the file's notes, in place of AT

The status is 1 if the file has none.
"""

import os

from kiblawen import common, elf


def main(words):
    parser = common.parser(__name__, __doc__)
    parser.add_argument("--build-id", action="store_true")
    parser.add_argument("file", metavar="FILE")
    given = parser.parse_args(words)
    if not os.path.exists(given.file):
        common.fail(__name__, f"there is no {given.file}")
    if elf.machine(given.file) is None:
        common.fail(__name__, f"{given.file} is no ELF file for AMD64 or AArch64")
    if given.build_id:
        found, lacks = elf.build_id(given.file), "build identifier"
    else:
        found, lacks = elf.last_loaded(given.file) and f"{elf.page_after(given.file):#x}", "loaded segment"
    if not found:
        common.fail(__name__, f"{given.file} has no {lacks}")
    print(found)
    return 0
