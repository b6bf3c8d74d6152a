"""Makes libkiblawen_link.a, the library that makes tables, of what `rt lib` has built in crates/sf_link_c.

    ./x archive

The archive is one object: the crate's, and the toolchain's allocator over malloc, realloc and free. No code is added. Of its names a
program sees those that kiblawen-link.h declares. The file is crates/sf_link_c/out/libkiblawen_link.a; `./x build --libraries` makes
it, too. It needs `rt`, and binutils: $AR, $LD and $OBJCOPY, or ar, ld and objcopy.
"""

import glob
import os
import shutil
import tempfile

from kiblawen import common, program

# The archive of the toolchain's allocator, from the folder of the page that `rt doc` names.
ALLOCATOR = os.path.join("c", "liblibc_c.a")
EXPORTS = "kiblawen_*"


def tool(name):
    return os.environ.get(name.upper()) or name


def run(module, *words, **how):
    if common.status_of(words, **how):
        common.fail(module, f"{words[0]} did not make {os.path.basename(program.LINK_LIBRARY)}")


def make(module):
    """Makes the archive. Ends the command if one of the tools fails."""
    page = common.output("rt", "doc")
    if page is None:
        common.fail(module, "there is no rt")
    allocator = os.path.join(os.path.dirname(page.strip()), ALLOCATOR)
    with tempfile.TemporaryDirectory() as room:
        for archive in (program.BUILT_LINK_LIBRARY, allocator):
            run(module, tool("ar"), "x", archive, cwd=room)
        whole, made = os.path.join(room, "kiblawen_link.o"), os.path.join(room, "made.a")
        run(module, tool("ld"), "-r", "-o", whole, *sorted(glob.glob(os.path.join(room, "*.o"))))
        run(module, tool("objcopy"), "--wildcard", f"--keep-global-symbol={EXPORTS}", whole)
        run(module, tool("ar"), "rcsD", made, whole)
        shutil.copyfile(made, program.LINK_LIBRARY)


def main(words):
    common.parser(__name__, __doc__).parse_args(words)
    if not os.access(program.BUILT_LINK_LIBRARY, os.R_OK):
        common.fail(__name__, f"{os.path.relpath(program.BUILT_LINK_LIBRARY, common.TOP)} is not built: `rt lib` in crates/sf_link_c builds it")
    make(__name__)
    return 0
