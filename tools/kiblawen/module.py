"""Makes the LLVM modules of the program and of the C library, from which a clang builds both without `rt`.

    ./x module

First `rt` builds both where they stand. It proves the crates below them for that, unless it has kept their libraries: `rt ci` leaves none.
`rt` makes a module of a crate, gives it to its clang, and deletes it. So both crates are compiled once more, in copies of what `rt` keeps,
and by links to the toolchain in which clang is a script: it keeps the module, and goes on as the toolchain's clang. The command fails if
this compiles other bytes than those that were built.

The modules are in out/llvm of the crates sf_tool and sf_c: as bitcode, as text for older versions of clang, and with the flags of the
toolchain's clang that change code. Beside that of the program is the object that the toolchain's clang makes of it. `./x release` packs
the modules, with packaging/llvm/.
"""

import os
import re
import shlex
import shutil
import subprocess
import tempfile

from kiblawen import build, common, program, staging

# The script that is clang. It runs in the folder in which `rt` has the module.
CLANG = """#!/bin/sh
cp module.bc {to}/module.bc && printf '%s\\n' "$@" >{to}/words && exec {clang} "$@"
"""
# The words of clang that change no code, or that only the toolchain's own understands: pathnames, warnings, and what is done on a crash.
NO_FLAGS = re.compile(r"--sysroot=.*|-c|-Werror|-no-canonical-prefixes|-fintegrated-cc1|-fno-crash-diagnostics|--no-default-config")
# What text for LLVM 22 has and LLVM 19 can't read. `ptrtoaddr` is a `ptrtoint` of which less is asked. The attributes are on declarations
# of intrinsics, whose attributes each version of LLVM knows by their names.
NEWER = ((" = ptrtoaddr ", " = ptrtoint "), (" captures(none)", ""), (" nocreateundeforpoison", ""))
LICENSES = {name: common.at_top(name) for name in ("LICENSE-MIT", "LICENSE-APACHE")}
# What is packed beside the modules.
BESIDE = {"kiblawen.h": common.at_top("include", "kiblawen.h"), **LICENSES}
NOTE = """
These are the LLVM modules of sf_tool and libkiblawen.a, and build.sh, which builds both. README.md tells how. The toolchain's clang,
version {version}, makes of them

sf_tool.o       sha256 {object}
libkiblawen.a   sha256 {library}
"""


class Module:
    """A module: the crate, what `rt` makes of it by which words, and the name of its files."""

    def __init__(self, crate, built, words, name):
        self.crate, self.built, self.words, self.name = crate, built, words, name
        self.folder = common.at_top("crates", crate, "out", "llvm")

    def paths(self):
        """Its files: bitcode, text and flags."""
        return [os.path.join(self.folder, f"{self.name}.{it}") for it in ("bc", "ll", "flags")]

    def object(self):
        """The object that was linked, if this is a program."""
        return os.path.join(self.folder, f"{self.crate}.o")

    def mark(self):
        """The file with the sum of what was built of the module."""
        return os.path.join(self.folder, "built")

    def is_made(self):
        """Its files are there, and are those of what is built now."""
        if not all(map(os.path.exists, [*self.paths(), self.mark()])):
            return False
        with open(self.mark(), encoding="ascii") as file:
            return file.read() == staging.digest(self.built)


# The program's run has words with which it prints a little and ends with 0.
MODULES = (
    Module("sf_tool", program.BUILT, ["run", "--", "gen", "1"], "sf_tool"),
    Module("sf_c", program.LIBRARY, ["lib"], "libkiblawen"),
)


class NotMade(Exception):
    """Why no module was made."""


def toolchain():
    """The toolchain's folder."""
    found = shutil.which("rt")
    if not found:
        raise NotMade("there is no rt")
    return os.path.dirname(os.path.dirname(os.path.realpath(found)))


def clang():
    """The toolchain's clang."""
    return os.path.join(toolchain(), "toolchain", "bin", "clang")


def link_all(folder, to, besides=()):
    """Makes a folder of links to what another one has, besides these names."""
    os.makedirs(to)
    for name in os.listdir(folder):
        if name not in besides:
            os.symlink(os.path.join(folder, name), os.path.join(to, name))


def toolchain_that_keeps(kept, room):
    """Makes links to the toolchain, whose clang keeps the module in the folder `kept`. Returns the pathname of its `rt`."""
    kit, links = toolchain(), os.path.join(room, "toolchain", "links")
    scripts = ("rt", "rtlib.py")
    link_all(kit, links, ("bin", "toolchain"))
    link_all(f"{kit}/bin", f"{links}/bin", scripts)
    link_all(f"{kit}/toolchain", f"{links}/toolchain", ("bin",))
    link_all(f"{kit}/toolchain/bin", f"{links}/toolchain/bin", ("clang",))
    for name in scripts:
        # They look for the rest of the toolchain beside themselves, and follow links.
        shutil.copy(f"{kit}/bin/{name}", f"{links}/bin/{name}")
    script = f"{links}/toolchain/bin/clang"
    staging.write(script, CLANG.format(to=shlex.quote(kept), clang=shlex.quote(clang())))
    os.chmod(script, 0o755)
    return f"{links}/bin/rt"


def link(file, to):
    try:
        os.link(file, to)
    except OSError:
        shutil.copy2(file, to)


def copy_crates(name, room):
    """Copies a crate and those below it, and what `rt` keeps of them. Returns the crate's folder."""
    below = build.below(name)
    for it in below:
        # `rt ci` leaves a library without this file, and over that one `rt` would prove all anew.
        if not os.path.exists(common.at_top("crates", it, "out", "rlib", "stamp")):
            raise NotMade(f"there is no library of the crate {it} over which `rt` compiles: `./x module` makes it")
    build.copy_crates([*below, name], room)
    for it, part, how in [*((it, "rlib", link) for it in below), (name, "incremental", shutil.copy2)]:
        kept = common.at_top("crates", it, "out", part)
        shutil.copytree(kept, os.path.join(room, "crates", it, "out", part), copy_function=how)
    return f"{room}/crates/{name}"


def flags(words):
    """The words of clang that change code, without those that name its files."""
    words = words[: words.index("-x")] + words[words.index("-o") + 2 :]
    return [it for it in words if not NO_FLAGS.fullmatch(it)]


def write_text(bitcode, path):
    """Writes a module as text that older versions of clang read."""
    words = ["-O0", "-Xclang", "-disable-llvm-passes", "-S", "-emit-llvm", "-x", "ir", os.path.basename(bitcode), "-o", "-"]
    ran = subprocess.run([clang(), *words], cwd=os.path.dirname(bitcode), stdout=subprocess.PIPE, check=False)
    if ran.returncode:
        raise NotMade(f"the toolchain's clang does not print {os.path.basename(bitcode)}")
    text = ran.stdout.decode()
    for newer, older in NEWER:
        text = text.replace(newer, older)
    staging.write(path, text)


def compile_again(module, kept, room):
    """Has `rt` compile a crate in a folder of its own, where `kept` gets the module and the words of clang. Returns the folder of what was made."""
    folder = copy_crates(module.crate, room)
    words = [toolchain_that_keeps(kept, room), *module.words]
    ran = subprocess.run(words, cwd=folder, stdin=subprocess.DEVNULL, stdout=subprocess.PIPE, stderr=subprocess.STDOUT, check=False)
    if ran.returncode or not os.path.exists(f"{kept}/words"):
        last = ran.stdout.decode(errors="replace").splitlines()[-1:]
        raise NotMade(f"{module.crate} was not compiled once more: rt ended with {ran.returncode}, and last said: {' '.join(last)}")
    built = os.path.join(folder, "out", os.path.basename(module.built))
    if staging.digest(built) != staging.digest(module.built):
        raise NotMade(f"compiled once more, {module.crate} has other bytes than {os.path.relpath(module.built, common.TOP)}")
    return os.path.dirname(built)


def make(module):
    """Makes the files of a module, if they are not there."""
    if module.is_made():
        return
    shutil.rmtree(module.folder, ignore_errors=True)
    with tempfile.TemporaryDirectory() as room:
        kept = os.path.join(room, "kept")
        os.makedirs(kept)
        made = compile_again(module, kept, room)
        bitcode, text, words = module.paths()
        os.makedirs(module.folder)
        shutil.copyfile(f"{kept}/module.bc", bitcode)
        write_text(bitcode, text)
        with open(f"{kept}/words", encoding="utf-8") as file:
            staging.write(words, "".join(f"{it}\n" for it in flags(file.read().splitlines())))
        if os.path.exists(f"{made}/{module.crate}.o"):
            shutil.copyfile(f"{made}/{module.crate}.o", module.object())
    staging.write(module.mark(), staging.digest(module.built))


def make_all():
    for module in MODULES:
        make(module)


def copy_all(paths, root):
    """Copies files below a root, by their names there."""
    for name, path in paths.items():
        to = os.path.join(root, name)
        os.makedirs(os.path.dirname(to), exist_ok=True)
        shutil.copyfile(path, to)
        os.chmod(to, 0o644)


def make_tarball(release, note, room, to):
    """Makes the tarball of the modules."""
    root = os.path.join(room, "llvm")
    scripts = common.at_top("packaging", "llvm")
    paths = [path for module in MODULES for path in module.paths()] + [os.path.join(scripts, name) for name in sorted(os.listdir(scripts))]
    copy_all({**{os.path.basename(path): path for path in paths}, **BESIDE}, root)
    version = common.output(clang(), "-dumpversion").strip()
    sums = NOTE.format(version=version, object=staging.digest(MODULES[0].object()), library=staging.digest(program.LIBRARY))
    staging.write(os.path.join(root, "RELEASE.txt"), note + sums)
    staging.settle(root, release.date)
    name = f"kiblawen-{release.version}-llvm"
    staging.write_tar(os.path.join(to, f"{name}.tar.gz"), root, name, release.date)


def main(words):
    common.parser(__name__, __doc__).parse_args(words)
    program.find(__name__, has_to_be_new=True)
    for module in MODULES:
        if common.status_of(["rt", *module.words], cwd=common.at_top("crates", module.crate), stdin=subprocess.DEVNULL):
            common.fail(__name__, f"`rt` did not build {module.crate}")
    try:
        make_all()
    except NotMade as why:
        common.fail(__name__, str(why))
    for path in (path for module in MODULES for path in module.paths()):
        print(f"{os.path.getsize(path):11,} {os.path.relpath(path, common.TOP)}")
    return 0
