"""Makes the files of a release from what `./x build` has built: a tarball, Debian packages, a note and checksums.

    ./x release            makes the files
    ./x release --check    makes none, and checks what each of them would have: a part of the gate

The files are in dist/, which is emptied first: kiblawen-VERSION-linux-MACHINE.tar.gz, the packages kiblawen, libkiblawen0,
libkiblawen-link0, libkiblawen-dev and python3-kiblawen, kiblawen-VERSION-llvm.tar.gz with the LLVM modules (see `./x help module`),
kiblawen-VERSION-static-MACHINE.tar.gz with a program that needs no C library, kiblawen-VERSION.txt, which is the note, and SHA256SUMS.
First run the gate, then `./x build`, `./x build --libraries` and `./x module`. The tree has to be as it was committed, and built from the
sources of this commit. A C compiler makes the shared libraries. A tarball or package that lacks one of its files, or has another one, fails
the command. With --check an empty text stands for what isn't built.

A commit that has the tag vVERSION is that version. Any other one is VERSION+gitDATE.COMMIT. All bytes come from the commit and from what
was built: times are the commit's, the owner is root, names are in order. Packages need dpkg-deb. Without it they are omitted.
If this machine has lintian, it reads the packages, and the status is 1 if it reports an error. `./x stranger` tries the files.
"""

import glob
import os
import re
import shutil
import tempfile
import time

from kiblawen import built, clauses, closure, common, debian, definitions, elf, install, module, payload, program, shared, staging, static

DIST = common.at_top("dist")
# The toolchain's logic, as README names it, and its digits. The name of a kit may come before it.
KIT = re.compile(r"`((?:\S+ )?logic ([0-9a-f]+))`")
NOTE = """Kiblawen {version}, for Linux on {machine}

commit          {commit}
built from      {built}
date            {day}
toolchain       {kit}
sf_tool         sha256 {program}
libkiblawen.a   sha256 {library}
libkiblawen_link.a sha256 {link_library}
sf_tool needs   {needs}

{functions:,} public functions have {clauses:,} clauses: theorems about each of their calls, over {definitions:,} definitions. The prover has to
refuse {edits:,} wrong bodies. These are counted in the sources of this commit. README.md has the claim, and docs/proof.md what is
trusted: both are in share/doc/kiblawen. This note, the packages and the scripts that make them are not proved.
"""
UNPACKED = """
bin, include, lib and share work in any folder. Add bin to PATH, share/man to MANPATH and lib/pkgconfig to PKG_CONFIG_PATH.
"""


def git(*words):
    found = common.output("git", "-C", common.TOP, *words)
    if found is None:
        common.fail(__name__, f"git {words[0]} failed: a release is made in a clone of the repository")
    return found.strip()


def kit():
    """The toolchain's line in README, and the logic that it names."""
    with open(common.at_top("README.md"), encoding="utf-8") as file:
        found = KIT.search(file.read())
    if not found:
        common.fail(__name__, "README.md does not name the toolchain")
    return found[1], found[2]


class Release:
    """The commit that is released, its version and date, the commit that was built, and the machine of the program."""

    def __init__(self):
        self.commit, self.date = git("rev-parse", "HEAD"), int(git("log", "-1", "--format=%ct"))
        self.built = built.commit()
        self.machine = elf.machine(program.BUILT) or "amd64"
        self.day = time.strftime("%Y-%m-%d", time.gmtime(self.date))
        number = common.version()
        is_tagged = f"v{number}" in git("tag", "--points-at", "HEAD").split()
        self.version = number if is_tagged else f"{number}+git{self.day.replace('-', '')}.{self.commit[:8]}"
        self.glibc = glibc_of(program.BUILT) if os.path.exists(program.BUILT) else None


def glibc_of(path):
    """The least version of glibc that a program runs with, or None if it needs no shared one."""
    with open(path, "rb") as file:
        found = re.findall(rb"\0GLIBC_(\d+)\.(\d+)", file.read())
    return ".".join(map(str, max((int(major), int(minor)) for major, minor in found))) if found else None


def public_functions():
    """The public functions that have clauses, as `./x clauses` lists them."""
    for crate in definitions.crates():
        for source in clauses.sources(crate):
            yield from (it for it in source.functions if it.clauses)


def note(release):
    functions = list(public_functions())
    return NOTE.format(
        version=release.version,
        machine=release.machine,
        commit=release.commit,
        built=release.built,
        day=release.day,
        kit=kit()[0],
        **{name: staging.digest(path) if os.path.exists(path) else "not built" for name, path in zip(("program", "library", "link_library"), built.FILES)},
        needs=f"glibc {release.glibc} or later" if release.glibc else "nothing",
        functions=len(functions),
        clauses=sum(len(it.clauses) for it in functions),
        definitions=len(closure.Definitions().lines),
        edits=len(glob.glob(common.at_top("crates", "*", "must-fail", "*.edit"))),
    )


def check_tree():
    """Ends the command if the tree differs from its commit."""
    changed = git("status", "--porcelain").splitlines()
    if changed:
        others = f", and {len(changed) - 1} more" if len(changed) > 1 else ""
        common.fail(__name__, f"the tree is not as it was committed: {changed[0].strip()}{others}")


def check_built():
    """Ends the command if the program or a library is missing, made of other sources, or by another toolchain."""
    program.find(__name__, has_to_be_new=True)
    for library in built.FILES[1:]:
        if not os.access(library, os.R_OK):
            common.fail(__name__, f"there is no {library}: `./x build --libraries` builds it")
        newer = program.newer_source(library)
        if newer:
            common.fail(__name__, f"{newer} is newer than {library}: build it again")
    found = built.commit()
    if not found or not built.has_same_sources(found):
        what = f"built from {found}, whose sources differ" if found else "not built by `./x build` from a tree as it was committed"
        common.fail(__name__, f"program and libraries were {what}")
    logic = kit()[1]
    for path in built.FILES:
        with open(path, "rb") as file:
            if f"rattle logic={logic}".encode() not in file.read():
                common.fail(__name__, f"{path} was not made by the toolchain that README.md names (logic {logic})")
    if not shared.compiler():
        common.fail(__name__, "there is no C compiler, which makes the shared libraries")


def tarball_root(by, text, room):
    """Makes the folder with what the tarball has."""
    root = os.path.join(room, "tarball")
    staging.installed(by, root, "/", "lib", "${pcfiledir}/../..")
    staging.write(os.path.join(root, "RELEASE.txt"), text + UNPACKED)
    payload.check(__name__, "the tarball", root, payload.of_tarball())
    return root


def make_tarball(release, text, room):
    root = tarball_root(install.Installation, text, room)
    staging.settle(root, release.date)
    name = f"kiblawen-{release.version}-linux-{release.machine}"
    staging.write_tar(os.path.join(DIST, f"{name}.tar.gz"), root, name, release.date)


def make_buildable(release, text, room):
    """Makes the tarballs of the LLVM modules and of the program that is linked from them. If there are none, a line says why."""
    try:
        module.make_all()
    except module.NotMade as why:
        print(f"release: no LLVM modules were made, and no static program: {why}")
        return
    module.make_tarball(release, text, room, DIST)
    static.make_tarball(release, text, room, DIST)


def write_sums():
    lines = [f"{staging.digest(os.path.join(DIST, name))}  {name}\n" for name in staging.names_below(DIST)]
    staging.write(os.path.join(DIST, "SHA256SUMS"), "".join(lines))


def check_parts():
    """Makes the folders with what the tarball and the packages have. Ends the command if one of them hasn't what its name says."""
    kit()
    release = Release()
    text = note(release)
    with tempfile.TemporaryDirectory() as room:
        tarball_root(payload.Names, text, room)
        names = [it.name for it in debian.packages(payload.Names, release, text, room)]
    how = "by what is built" if payload.is_built() else "by names, as not all is built here"
    print(f"release: the tarball and {', '.join(names)} have what their names say, {how}")
    return 0


def main(words):
    parser = common.parser(__name__, __doc__)
    parser.add_argument("--check", action="store_true")
    if parser.parse_args(words).check:
        return check_parts()
    check_tree()
    check_built()
    release = Release()
    text = note(release)
    shutil.rmtree(DIST, ignore_errors=True)
    os.makedirs(DIST)
    with tempfile.TemporaryDirectory() as room:
        make_tarball(release, text, room)
        packages = debian.make_all(release, text, room, DIST)
        make_buildable(release, text, room)
    staging.write(os.path.join(DIST, f"kiblawen-{release.version}.txt"), text)
    write_sums()
    for name in staging.names_below(DIST):
        print(f"{os.path.getsize(os.path.join(DIST, name)):9,} dist/{name}")
    return debian.lint(packages)
