"""Puts the program, `kiblawen-add`, `kiblawen-core`, the C libraries with their headers, a Python module, man pages and documents under a prefix.

    ./x install [PREFIX]                               by default /usr/local
    LIBDIR=lib/x86_64-linux-gnu ./x install /usr       the folder of the C libraries, by default PREFIX/lib
    DESTDIR=/tmp/root ./x install /usr                 the files go below /tmp/root, for use below /usr

PREFIX and DESTDIR are relative to the folder where the script is started, LIBDIR to PREFIX. DESTDIR is for packages: no installed
file names it. Two of the documents are what `./x definitions` and `./x clauses` print. First build the program with `sh demo/run`, and the C
libraries with `./x build --libraries`; a library that isn't built is omitted. The shared libraries are made from the archives by a C compiler
($CC, or cc); without one they are omitted. A line says what is omitted. Nothing else is needed, and nothing outside the prefix changes.
"""

import os
import shutil
import tempfile

from kiblawen import clauses, common, definitions, program, shared

DOCUMENTS = ["README.md", "CHANGELOG.md", "CONTRIBUTING.md", "SECURITY.md", "VERSION", "LICENSE-MIT", "LICENSE-APACHE"]
# The scripts beside the program, and their modules.
SCRIPTS = ["kiblawen-add", "kiblawen-core"]
MODULES = [
    "__init__.py", "add.py", "common.py", "core.py", "core_file.py", "elf.py", "program.py", "replacing.py", "symbols.py", "tables.py",
]
# The documents that are made of the sources.
LISTS = {"clauses.md": clauses.page, "definitions.md": definitions.page}
LIBRARY_NAMES = {program.LIBRARY: "libkiblawen", program.LINK_LIBRARY: "libkiblawen_link"}
# The quotes keep a folder with a blank in its name one word.
PKG_CONFIG = """prefix={prefix}
libdir={libdir}
includedir=${{prefix}}/include

Name: kiblawen
Description: SFrame Version 2 sections, look-ups and walks of samples
Version: {version}
Cflags: -I"${{includedir}}"
Libs: -L"${{libdir}}" -lkiblawen
"""
PKG_CONFIG_LINK = """prefix={prefix}
libdir={libdir}
includedir=${{prefix}}/include

Name: kiblawen-link
Description: SFrame Version 2 sections made of ELF files and .eh_frame sections
Version: {version}
Requires: kiblawen
Cflags: -I"${{includedir}}"
Libs: -L"${{libdir}}" -lkiblawen_link
"""


def here():
    """The folder where the script is started, by the name that the shell has for it."""
    named = os.environ.get("PWD", "")
    return named if os.path.isabs(named) and os.path.isdir(named) and os.path.samefile(named, ".") else os.getcwd()


def absolute(folder, start):
    """The folder, counted from another one."""
    return folder if folder.startswith("/") else f"{start[:-1] if start.endswith('/') else start}/{folder}"


class Installation:
    """The folders that files are put into, below DESTDIR where it is given. `named` is the prefix in the pkg-config file."""

    def __init__(self, prefix, libdir, root, named=None):
        self.prefix = absolute(prefix or "/usr/local", here())
        self.prefix = self.prefix[:-1] if self.prefix.endswith("/") else self.prefix
        self.libdir = absolute(libdir or "lib", self.prefix)
        self.named = named or self.prefix
        self.root = absolute(root, here()) if root else ""

    def put(self, mode, path, folder, name=None):
        """A copy of a file in a folder."""
        os.makedirs(self.root + folder, exist_ok=True)
        to = f"{self.root}{folder}/{name or os.path.basename(path)}"
        # An older file that a running program has mapped keeps its bytes.
        if os.path.lexists(to):
            os.remove(to)
        shutil.copyfile(path, to)
        os.chmod(to, mode)

    def write(self, text, folder, name):
        """A text as a file of a folder."""
        os.makedirs(self.root + folder, exist_ok=True)
        path = f"{self.root}{folder}/{name}"
        with open(path, "w", encoding="utf-8", errors="surrogateescape") as file:
            file.write(text)
        os.chmod(path, 0o644)

    def put_all(self, version):
        self.put_program()
        self.put_library(version)

    def put_program(self):
        """Installs the program, the scripts beside it and the documents."""
        self.put(0o755, program.BUILT, f"{self.prefix}/bin")
        for name in SCRIPTS:
            self.put(0o755, common.at_top("tools", name), f"{self.prefix}/bin")
        for name in MODULES:
            self.put(0o644, common.at_top("tools", "kiblawen", name), f"{self.prefix}/share/kiblawen/kiblawen")
        for name in ("sf_tool", *SCRIPTS):
            self.put(0o644, common.at_top("man", f"{name}.1"), f"{self.prefix}/share/man/man1")
        documents = f"{self.prefix}/share/doc/kiblawen"
        for name in DOCUMENTS:
            self.put(0o644, common.at_top(name), documents)
        for name in sorted(os.listdir(common.at_top("docs"))):
            if name.endswith((".md", ".svg")):
                self.put(0o644, common.at_top("docs", name), f"{documents}/docs")
        for name, made in LISTS.items():
            self.write(made(), f"{documents}/docs", name)

    def put_library(self, version):
        """Installs the library that looks up, with its header and the Python module."""
        self.put(0o644, program.LIBRARY, self.libdir, "libkiblawen.a")
        self.put(0o644, common.at_top("include", "kiblawen.h"), f"{self.prefix}/include")
        if shared.compiler():
            self.put_shared(shared.LOOK_UP)
        self.put(0o644, common.at_top("python", "kiblawen.py"), f"{self.prefix}/share/kiblawen/python")
        self.put_pkg_config("kiblawen", PKG_CONFIG, version)

    def put_link_library(self, version):
        """Installs the library that makes tables, with its header."""
        self.put(0o644, program.LINK_LIBRARY, self.libdir)
        self.put(0o644, common.at_top("include", "kiblawen-link.h"), f"{self.prefix}/include")
        if shared.compiler():
            self.put_shared(shared.LINK)
        self.put_pkg_config("kiblawen-link", PKG_CONFIG_LINK, version)

    def put_shared(self, library):
        """Makes a shared library, and the link that `-lkiblawen` or `-lkiblawen_link` finds."""
        with tempfile.TemporaryDirectory() as room:
            library.make(__name__, os.path.join(room, library.name))
            self.put(0o644, os.path.join(room, library.name), self.libdir)
        link = f"{self.root}{self.libdir}/{library.link}"
        if os.path.lexists(link):
            os.remove(link)
        os.symlink(library.name, link)

    def put_pkg_config(self, name, text, version):
        is_below = self.libdir.startswith(f"{self.prefix}/")
        named = f"${{prefix}}{self.libdir[len(self.prefix):]}" if is_below else self.libdir
        self.write(text.format(prefix=self.named, libdir=named, version=version), f"{self.libdir}/pkgconfig", f"{name}.pc")


def main(words):
    parser = common.parser(__name__, __doc__)
    parser.add_argument("prefix", nargs="?", metavar="PREFIX")
    given = parser.parse_args(words)
    to = Installation(given.prefix, os.environ.get("LIBDIR"), os.environ.get("DESTDIR"))
    if any(it in to.prefix + to.libdir for it in '"\\$#\n'):
        common.fail(__name__, 'a pkg-config file can hold no ", \\, $, # or line feed of PREFIX or LIBDIR')
    top = to.root + to.prefix
    try:
        os.makedirs(top or "/", exist_ok=True)
    except OSError:
        common.fail(__name__, f"{top} cannot be made")
    if not os.access(top or "/", os.W_OK):
        common.fail(__name__, f"{top} is not writable")
    if not os.access(program.BUILT, os.R_OK):
        common.fail(__name__, f"{os.path.relpath(program.BUILT, common.TOP)} is not built: sh demo/run builds it")
    version, libraries = common.version(), {program.LIBRARY: to.put_library, program.LINK_LIBRARY: to.put_link_library}
    try:
        to.put_program()
        for archive, put in libraries.items():
            if os.access(archive, os.R_OK):
                put(version)
            else:
                print(f"{LIBRARY_NAMES[archive]} is omitted: ./x build --libraries builds it")
    except OSError as fault:
        common.fail(__name__, str(fault))
    if not shared.compiler():
        print("the shared libraries are omitted: there is no C compiler, which makes them")
    print(f"kiblawen {version} for {to.prefix} is installed{f' under {to.root}' if to.root else ''}")
    return 0
