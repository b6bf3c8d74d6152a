"""Makes the section of a real library unproved, builds the program, and shows what each command does with that library.

    ./x demo          the library is the machine's C library, or else the program itself
    ./x demo FILE     another executable or shared object for AMD64 or AArch64

It needs `rt`, with python3 and clang as `rt` itself does, binutils, awk and cmp. It compiles the objects if there is a C
compiler, and makes core files if there is gdb. The files made are in demo/out. demo/show.sh has the steps.
"""

from kiblawen import common


def main(words):
    common.become("sh", common.at_top("demo", "show.sh"), *words)
