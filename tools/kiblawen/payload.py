"""What the tarball and the packages of a release have to have, by their names: each of these files, and no other besides documents."""

import os
import re

from kiblawen import common, elf, install, program, shared, staging

# Documents are passed over: their names are those of docs/.
DOCUMENTS = re.compile(r"(usr/)?share/(doc|lintian)/|RELEASE\.txt$|DEBIAN/")
# What stands for a file that isn't built, where only names are checked.
STAND_IN = b"not built"


class Names(install.Installation):
    """An installation in which a short text stands for each file that isn't built."""

    def put(self, mode, path, folder, name=None):
        if os.path.exists(path):
            super().put(mode, path, folder, name)
            return
        to = f"{self.root}{folder}/{name or os.path.basename(path)}"
        os.makedirs(os.path.dirname(to), exist_ok=True)
        with open(to, "wb") as file:
            file.write(STAND_IN)

    def put_shared(self, library):
        if os.path.exists(library.archive) and shared.compiler():
            super().put_shared(library)
            return
        self.put(0o644, library.name, self.libdir)
        os.symlink(library.name, f"{self.root}{self.libdir}/{library.link}")


def of_program(prefix, page):
    """The files of the program and of the scripts beside it. `page` is the ending of a man page."""
    return {
        *(f"{prefix}bin/{name}" for name in ("sf_tool", *install.SCRIPTS)),
        *(f"{prefix}share/man/man1/{name}.1{page}" for name in ("sf_tool", *install.SCRIPTS)),
        *(f"{prefix}share/kiblawen/kiblawen/{name}" for name in install.MODULES),
    }


def of_development(prefix, libdir):
    """The files that a C compiler reads."""
    return {
        *(f"{libdir}/{name}" for library in (shared.LOOK_UP, shared.LINK) for name in (f"{library.base}.a", library.link)),
        *(f"{libdir}/pkgconfig/{name}.pc" for name in ("kiblawen", "kiblawen-link")),
        *(f"{prefix}include/{name}.h" for name in ("kiblawen", "kiblawen-link")),
    }


def of_tarball():
    libraries = {f"lib/{it.name}" for it in (shared.LOOK_UP, shared.LINK)}
    return of_program("", "") | of_development("", "lib") | libraries | {"share/kiblawen/python/kiblawen.py"}


def of_package(name, libdir):
    """The files of a Debian package, with the folder of its libraries."""
    return {
        "kiblawen": of_program("usr/", ".gz"),
        "libkiblawen0": {f"{libdir}/{shared.LOOK_UP.name}"},
        "libkiblawen-link0": {f"{libdir}/{shared.LINK.name}"},
        "libkiblawen-dev": of_development("usr/", libdir),
        "python3-kiblawen": {"usr/lib/python3/dist-packages/kiblawen.py"},
    }[name]


def is_sound(path):
    """Whether a file is what its name says: not empty, a program or shared library in ELF, an archive, or a link to a shared library."""
    name = os.path.basename(path)
    if os.path.islink(path):
        return os.readlink(path) in (shared.LOOK_UP.name, shared.LINK.name) and os.readlink(path).startswith(name)
    with open(path, "rb") as file:
        head = file.read(64)
    if head == STAND_IN or not head:
        return bool(head)
    if name.endswith(".a"):
        return head.startswith(b"!<arch>\n")
    return name != "sf_tool" and ".so" not in name or elf.kind_in(head)[1] is not None


def faults(root, wanted):
    """What the files below a folder lack, or have too much."""
    names = {it for it in staging.names_below(root) if not DOCUMENTS.match(it)}
    yield from (f"has no {it}" for it in sorted(wanted - names))
    yield from (f"has {it}, which isn't listed for it" for it in sorted(names - wanted))
    yield from (f"has a wrong {it}" for it in sorted(names & wanted) if not is_sound(os.path.join(root, it)))


def check(module, name, root, wanted):
    """Ends the command if the files below a folder are not those of this part of a release."""
    found = list(faults(root, wanted))
    for it in found:
        print(f"{name} {it}")
    if found or not wanted:
        common.fail(module, f"{name} is not what its name says")


def is_built():
    """Whether all is built that a release has."""
    return all(os.path.exists(it) for it in (program.BUILT, program.LIBRARY, program.LINK_LIBRARY)) and shared.compiler() is not None
