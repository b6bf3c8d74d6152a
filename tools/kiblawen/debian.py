"""Makes the Debian packages of a release. `./x release` calls it."""

import hashlib
import os
import re
import shutil
import subprocess
import time

from kiblawen import common, install, payload, shared, staging

MAINTAINER = "Kiblawen maintainers <maintainers@users.noreply.kiblawen.example>"
# A package's version is that of the release, and this number of its packaging.
REVISION = "1"
# The first version that has the shared library.
FIRST_SHARED = "0.1.0"
# dpkg's names for the two machines, and the folders of their libraries below /usr/lib.
ARCHITECTURES = {"amd64": ("amd64", "x86_64-linux-gnu"), "aarch64": ("arm64", "aarch64-linux-gnu")}
LICENSES = ("LICENSE-MIT", "LICENSE-APACHE")
CHANGELOG = """{name} ({version}) unstable; urgency=medium

  * Kiblawen {number}, of the commit
    {commit}.

 -- {maintainer}  {date}
"""
COPYRIGHT = """Format: https://www.debian.org/doc/packaging-manuals/copyright-format/1.0/
Upstream-Name: Kiblawen

Files: *
Copyright: {copyright}
License: MIT or Apache-2.0

License: MIT
{mit}

License: Apache-2.0
 The text is /usr/share/common-licenses/Apache-2.0.
"""
# What lintian would report, and why it is so.
OVERRIDES = """# This package is not in Debian's archive.
{name}: initial-upload-closes-no-bugs *
"""
TOOL_OVERRIDES = """# The program's bytes are those that the gate built and tested, so that they can be compared. It has no debug information.
kiblawen: unstripped-binary-or-object *
# The pages refer to it by this name.
kiblawen: wrong-name-for-upstream-changelog *
"""
SHARED_OVERRIDES = """# It allocates nothing and calls nothing, the C library included.
libkiblawen0: shared-library-lacks-prerequisites *
"""
TOOL = """Package: kiblawen
Section: devel
Multi-Arch: foreign
Depends: {needs}
Recommends: binutils
Description: proved tool for SFrame Version 2 stack trace tables
 sf_tool makes SFrame tables from the .eh_frame sections that AMD64 and
 AArch64 programs, shared objects and relocatable objects carry. Profilers,
 crash reporters and kernels walk stacks with such a table, without frame
 pointers and without an interpreter of DWARF.
 .
 It is proved for every input that a table recovers what DWARF recovers.
 sf_tool also merges, shortens, prints, searches and verifies tables, and
 walks the threads of core files with them.
"""
ABOUT = """ The library checks an SFrame Version 2 section once. Then it looks up
 addresses, recovers a caller's frame, and walks samples: registers and a
 copy of part of the stack. It allocates nothing.
 .
 It is proved what each call returns and writes, for all sections, registers
 and memory, if the caller meets the header's conditions.
"""
SHARED = f"""Package: libkiblawen0
Section: libs
Multi-Arch: same
Description: look-ups and walks with SFrame stack trace tables
{ABOUT} This package has the shared library.
"""
SHARED_LINK = """Package: libkiblawen-link0
Section: libs
Multi-Arch: same
Depends: {needs}
Description: makes SFrame stack trace tables in a program
 The library makes SFrame Version 2 tables of ELF files and .eh_frame
 sections, as the program sf_tool does, in the process of a profiler or
 tracer. It also merges, shortens and verifies tables, and reads where a
 file is loaded. It allocates by malloc.
 .
 It is proved for every input that a table recovers what DWARF recovers, if
 the caller meets the header's conditions.
 .
 This package has the shared library.
"""
LIBRARY = f"""Package: libkiblawen-dev
Section: libdevel
Multi-Arch: same
Depends: libkiblawen0 (= {{version}}), libkiblawen-link0 (= {{version}})
Suggests: kiblawen
Description: look-ups and walks with SFrame stack trace tables, for C and C++
{ABOUT} A second library, kiblawen-link, makes tables.
 .
 This package has the static libraries, the headers and the pkg-config
 files.
"""
PYTHON = f"""Package: python3-kiblawen
Section: python
Architecture: all
Depends: python3 (>= 3.8), libkiblawen0 (>= {FIRST_SHARED})
Recommends: libkiblawen-link0 (>= {FIRST_SHARED})
Suggests: kiblawen
Description: look-ups and walks with SFrame stack trace tables, for Python
{ABOUT} This package has a module that calls the library. The module is tested
 and not proved.
"""
# Where the stage has the Python module, and where Debian has such modules.
MODULE, DEBIAN_MODULE = "usr/share/kiblawen/python/kiblawen.py", "usr/lib/python3/dist-packages/kiblawen.py"
# What dpkg-shlibdeps reads for a program that is linked with a shared library, and what ldconfig is run for.
SHLIBS = "{base} 0 {name} (>= {version})\n"
TRIGGERS = "activate-noawait ldconfig\n"
# The packages with a shared library.
SHARED_LIBRARIES = {SHARED: shared.LOOK_UP, SHARED_LINK: shared.LINK}
# Each has its fields, and the files that it takes of those that no earlier one took.
PACKAGES = (
    (SHARED, re.compile(rf"usr/lib/.*/{re.escape(shared.LOOK_UP.name)}$")),
    (SHARED_LINK, re.compile(rf"usr/lib/.*/{re.escape(shared.LINK.name)}$")),
    (PYTHON, re.compile(re.escape(DEBIAN_MODULE))),
    (LIBRARY, re.compile("usr/(include|lib)/")),
    (TOOL, re.compile("")),
)


def pack(path):
    with open(path, "rb") as file:
        staging.write_packed(f"{path}.gz", file.read())
    os.remove(path)


def copyright_text():
    with open(common.at_top("LICENSE-MIT"), encoding="utf-8") as file:
        text = file.read()
    holder = re.search(r"(?m)^Copyright \(c\) (.*)$", text)[1]
    mit = "\n".join(f" {line}" if line else " ." for line in text.strip().splitlines())
    return COPYRIGHT.format(copyright=holder, mit=mit)


def is_script(path):
    with open(path, "rb") as file:
        return bool(re.match(rb"#!.*python3", file.readline()))


class Package:
    """A package that is made in a folder: its files, what dpkg wants to know of them, and the note of the release."""

    def __init__(self, release, fields, root):
        self.release, self.root = release, root
        self.name = re.match(r"Package: (\S+)", fields)[1]
        self.version = f"{release.version}-{REVISION}"
        # A package of scripts names its architecture itself.
        named = re.search(r"(?m)^Architecture: (\S+)\n", fields)
        self.architecture = named[1] if named else ARCHITECTURES[release.machine][0]
        self.fields = fields.replace(named[0], "") if named else fields

    def take(self, stage, wanted):
        """Moves the files that it takes from the folder where all are."""
        for name in staging.names_below(stage):
            if wanted.match(name):
                os.renames(os.path.join(stage, name), os.path.join(self.root, name))

    def needs(self):
        """The packages that its files need: glibc of the program's version, and Python if there is a script in Python."""
        folder = os.path.join(self.root, "usr/bin")
        names = os.listdir(folder) if os.path.isdir(folder) else []
        scripts = [name for name in names if is_script(os.path.join(folder, name))]
        glibc = self.release.glibc
        return ", ".join(([f"libc6 (>= {glibc})"] if glibc else []) + (["python3 (>= 3.8)"] if scripts else []))

    def changelog(self):
        values = {"name": self.name, "version": self.version, "number": self.release.version, "commit": self.release.commit}
        date = time.strftime("%a, %d %b %Y %H:%M:%S +0000", time.gmtime(self.release.date))
        return CHANGELOG.format(maintainer=MAINTAINER, date=date, **values)

    def add_documents(self, note):
        """Adds the documents that each Debian package has."""
        documents = os.path.join(self.root, "usr/share/doc", self.name)
        staging.write_packed(os.path.join(documents, "changelog.Debian.gz"), self.changelog().encode())
        staging.write(os.path.join(documents, "copyright"), copyright_text())
        staging.write(os.path.join(documents, "RELEASE.txt"), note)
        overrides = OVERRIDES.format(name=self.name) + {"kiblawen": TOOL_OVERRIDES, "libkiblawen0": SHARED_OVERRIDES}.get(self.name, "")
        staging.write(os.path.join(self.root, "usr/share/lintian/overrides", self.name), overrides)

    def follow_policy(self):
        """Compresses the man pages, and drops the licences, which the file `copyright` has."""
        for name in staging.names_below(self.root):
            if os.path.basename(name) in LICENSES:
                os.remove(os.path.join(self.root, name))
            elif re.match(r"usr/share/man/.*[0-9]$", name):
                pack(os.path.join(self.root, name))

    def add_shared(self, library):
        """Adds what dpkg wants to know of a package with a shared library: its names, since which version they are there."""
        symbols = "".join(f" {name} {FIRST_SHARED}\n" for name in library.exports())
        staging.write(os.path.join(self.root, "DEBIAN/symbols"), f"{library.name} {self.name} #MINVER#\n{symbols}")
        shlibs = SHLIBS.format(base=library.base, name=self.name, version=FIRST_SHARED)
        staging.write(os.path.join(self.root, "DEBIAN/shlibs"), shlibs)
        staging.write(os.path.join(self.root, "DEBIAN/triggers"), TRIGGERS)

    def add_control(self):
        names = [it for it in staging.names_below(self.root) if not os.path.islink(os.path.join(self.root, it))]
        paths = [os.path.join(self.root, name) for name in names]
        sums = "".join(f"{staging.digest(path, hashlib.md5)}  {name}\n" for path, name in zip(paths, names))
        size = sum(-(-os.path.getsize(path) // 1024) for path in paths)
        first, rest = self.fields.split("\n", 1)
        own = f"Version: {self.version}\nArchitecture: {self.architecture}\nMaintainer: {MAINTAINER}\nInstalled-Size: {size}\nPriority: optional\n"
        rest = rest.replace("{needs}", self.needs() if "{needs}" in rest else "").replace("{version}", self.version)
        staging.write(os.path.join(self.root, "DEBIAN/md5sums"), sums)
        staging.write(os.path.join(self.root, "DEBIAN/control"), f"{first}\n{own}{rest}")

    def make(self, to):
        """Writes the package by dpkg-deb. Returns its pathname."""
        staging.settle(self.root, self.release.date)
        path = os.path.join(to, f"{self.name}_{self.version}_{self.architecture}.deb")
        words = ["dpkg-deb", "-Zxz", "--root-owner-group", "--build", self.root, path]
        how = {"env": {**os.environ, "SOURCE_DATE_EPOCH": str(self.release.date)}, "stdout": subprocess.DEVNULL}
        if common.status_of(words, **how):
            common.fail("release", f"dpkg-deb did not make {os.path.basename(path)}")
        return path


def packages(by, release, note, room):
    """The packages, each in a folder of its own with all that it has."""
    stage, libdir = os.path.join(room, "stage"), f"usr/lib/{ARCHITECTURES[release.machine][1]}"
    staging.installed(by, stage, "/usr", libdir[len("usr/") :])
    os.renames(os.path.join(stage, MODULE), os.path.join(stage, DEBIAN_MODULE))
    for number, (fields, wanted) in enumerate(PACKAGES):
        package = Package(release, fields, os.path.join(room, "packages", str(number)))
        package.take(stage, wanted)
        package.follow_policy()
        package.add_documents(note)
        package.add_control()
        if fields in SHARED_LIBRARIES:
            package.add_shared(SHARED_LIBRARIES[fields])
        payload.check("release", f"the package {package.name}", package.root, payload.of_package(package.name, libdir))
        yield package


def make_all(release, note, room, to):
    """Makes the packages. Returns their pathnames: none, with a line, if this machine has no dpkg-deb."""
    if not shutil.which("dpkg-deb"):
        print("release: no packages were made: this machine has no dpkg-deb")
        return []
    return [package.make(to) for package in packages(install.Installation, release, note, room)]


def lint(packages):
    """Has lintian read the packages, if this machine has it. Returns 1 if it reports an error."""
    if not packages:
        return 0
    if not shutil.which("lintian"):
        print("release: the packages were not read by lintian: this machine has none")
        return 0
    failed = common.status_of(["lintian", "--allow-root", "--fail-on", "error", *packages]) != 0
    print(f"release: the packages were read by lintian: {'FAILED' if failed else 'no error'}")
    return int(failed)
