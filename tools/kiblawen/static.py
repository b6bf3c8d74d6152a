"""Links the program with the C library of this machine in it, for systems with an older one or another one. `./x release` calls it."""

import os
import re
import shutil

from kiblawen import common, module, staging

# No library is found while it runs, and its address is chosen at its start, as that of the program that the gate built.
FLAGS = ("-static-pie", "-Wl,--gc-sections,-z,relro,-z,now,-z,noexecstack")
# Where Debian has the text of the licence.
LICENSE = "/usr/share/common-licenses/LGPL-2.1"
ARCHIVES = ("libos_c.a", "liblibc_c.a")
NOTE = """
This sf_tool needs no shared library: it runs on each Linux for {machine}. It is linked by the C compiler of a distribution from the object
that the toolchain's clang made, and has parts of the GNU C library in it, {version}. That library's licence is the LGPL, version 2.1 or later,
in the file LGPL-2.1. Who passes the program on has to offer the library's source. kiblawen-{release}-llvm.tar.gz has what the program
can be linked from anew, with a changed library.
"""


def library_version():
    """The version of this machine's C library, or None if it is not glibc."""
    found = re.match(r"glibc (\S+)", common.output("getconf", "GNU_LIBC_VERSION") or "")
    return found[1] if found else None


def link(to):
    """Links the program. Returns why it can't, or None."""
    for needed in ("cc", "getconf"):
        if not shutil.which(needed):
            return f"there is no {needed}"
    if not library_version() or not os.path.exists(LICENSE):
        return f"this machine lacks glibc or {LICENSE}"
    folder = os.path.join(module.toolchain(), "c")
    words = ["cc", *FLAGS, "-o", to, module.MODULES[0].object(), *(os.path.join(folder, it) for it in ARCHIVES)]
    os.makedirs(os.path.dirname(to), exist_ok=True)
    return "the C compiler links no static program" if common.status_of(words) else None


def make_tarball(release, note, room, to):
    """Makes the tarball of the static program. If it can't, a line says why."""
    root = os.path.join(room, "static")
    missing = link(os.path.join(root, "bin", "sf_tool"))
    if missing:
        print(f"release: no static program was made: {missing}")
        return
    text = NOTE.format(machine=release.machine, version=library_version(), release=release.version)
    staging.write(os.path.join(root, "RELEASE.txt"), note + text)
    module.copy_all({"share/man/man1/sf_tool.1": common.at_top("man", "sf_tool.1"), "LGPL-2.1": LICENSE, **module.LICENSES}, root)
    staging.settle(root, release.date)
    name = f"kiblawen-{release.version}-static-{release.machine}"
    staging.write_tar(os.path.join(to, f"{name}.tar.gz"), root, name, release.date)
