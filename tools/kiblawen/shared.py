"""Makes the shared libraries from the archives that were built, by a C compiler. `./x install` and `./x release` call it.

The compiler is $CC, or cc. It only links: no code is added to the archives', but for a division of libgcc in libkiblawen_link.so.0.
libkiblawen.so.0 needs no other library, and libkiblawen_link.so.0 needs the C library.
"""

import os
import re
import shlex
import shutil

from kiblawen import common, program

# -z defs fails if the archive needs a name that nothing has.
LINKER = "-z,defs,-z,relro,-z,now,-z,noexecstack,-Bsymbolic,--build-id=sha1"


def compiler():
    """The words of the C compiler, or None if this machine has none."""
    words = shlex.split(os.environ.get("CC") or "cc")
    return words if words and shutil.which(words[0]) else None


class Library:
    """A shared library: the name of its files without the end, its archive, and the flags that say what else is linked."""

    def __init__(self, base, archive, *flags):
        # The file, which is also the name that the dynamic linker looks for, and the link by which a compiler finds it.
        self.base, self.name, self.link = base, f"{base}.so.0", f"{base}.so"
        self.archive, self.flags = archive, flags
        self.map = common.at_top("include", f"{base}.map")

    def make(self, module, path):
        """Makes the library under this name. Ends the command if the compiler fails."""
        flags = ["-shared", *self.flags, "-s", f"-Wl,{LINKER},-soname,{self.name}", f"-Wl,--version-script,{self.map}"]
        archive = ["-Wl,--whole-archive", self.archive, "-Wl,--no-whole-archive"]
        if common.status_of([*compiler(), *flags, "-o", path, *archive]):
            common.fail(module, f"{compiler()[0]} did not make {self.name}")

    def exports(self):
        """The exported names with their versions, as NAME@VERSION, in the order of the map, each version's own name first."""
        with open(self.map, encoding="utf-8") as file:
            nodes = re.findall(r"(?m)^([\w.]+) \{([^}]*)\}", file.read())
        return [f"{name}@{version}" for version, text in nodes for name in [version, *sorted(re.findall(r"\bkiblawen_\w+(?=;)", text))]]


# Without files of the compiler's own nothing else is linked.
LOOK_UP = Library("libkiblawen", program.LIBRARY, "-nostdlib")
LINK = Library("libkiblawen_link", program.LINK_LIBRARY, "-nostartfiles")
