"""Installs each file of dist/ in a Debian root of its own, without a Rattle toolchain, and uses it there as a stranger would.

    ./x stranger            the root is made by debootstrap, with C compilers, binutils, pkg-config and Python
    ./x stranger ROOT       the root is a copy of this one, such as debootstrap made; tried with Debian 12 and 13

First run `./x release`. It needs the rights of root for chroot, and gdb and a C compiler for a core file. The copies of a root are links
to its files, in a temporary folder beside it, so they take little room. ROOT gets lines in dpkg's log.

The package kiblawen: the tutorial's first table, kiblawen-add on a program, procwalk, procbacktrace and kiblawen-core on a core file that is
copied in, beside gdb; then it is removed.
The packages libkiblawen0, libkiblawen-link0 and libkiblawen-dev: the walker of docs/library.md, built by pkg-config, makes the table of the
tutorial's program and walks a sample: with the archives, and with the shared libraries, also after libkiblawen-dev is removed.
The package python3-kiblawen: the same walk in Python.
The tarball: the tutorial's first table, kiblawen-add, and example/walk-self.c, built by pkg-config, walks its own stack beside backtrace().
The LLVM modules: the newest clang of the root builds program and library, and the tutorial's first table is made. The static program: it runs
in a folder in which there is no other file.
At last a clone in another folder makes the same release from the same program, library and modules: the checksums are the same.

The last line is `N passed, M failed, K skipped`. The status is 1 if a part failed.
"""

import glob
import os
import re
import shutil
import subprocess
import sys
import tempfile

from kiblawen import built, common, module, pages, program, release, shared, staging, stopping

SUITE = "bookworm"
DEBOOTSTRAP = ["debootstrap", "--variant=minbase", "--include=gcc,libc6-dev,binutils,pkgconf,python3,clang-19", SUITE]
PATH = "/usr/sbin:/usr/bin:/sbin:/bin"
# How long a script may take: a clang builds the program in a minute, on a busy machine in several.
SECONDS = 4 * common.SECONDS
# Where the tarball is unpacked, in a root.
TARBALL = "/try/kiblawen"
# How a command is begun in a root, and with /proc there. That is mounted for this command alone.
CHROOT = ("chroot",)
WITH_PROC = ("unshare", "--mount", "sh", "-c", 'mount -t proc proc "$0/proc" && exec chroot "$0" "$@"')
# Makes copies of FILES below with/, each with its table in a section that is marked as loaded.
WITH = """
mkdir -p with
for file in FILES; do
    end=$(readelf -lW $file | awk '$1 == "LOAD" { end = $3 "+" $6 } END { print end }')
    at=$(printf 0x%x $((($end + 4095) / 4096 * 4096)))
    sf_tool link $file.sframe@$at $file@0x0 >$file.report
    objcopy --add-section .sframe=$file.sframe --set-section-flags .sframe=alloc,readonly,data --change-section-address .sframe=$at $file with/$file 2>warnings
done
"""
SORTS = """
#include <stdlib.h>
static int less(const void *a, const void *b) { __builtin_trap(); return a < b; }
int main(void)
{
    int numbers[8] = { 8, 7, 6, 5, 4, 3, 2, 1 };
    qsort(numbers, 8, sizeof *numbers, less);
    return numbers[0];
}
"""
# A program that is given a table.
PRINTS = """
#include <stdio.h>
int main(int argc, char **argv) { return puts(argv[argc - 1]) < 0; }
"""
# Walks a sample at the beginning of the tutorial's function count, whose stack holds one value, with the walker of docs/library.md.
WALKS = """
#include <stdio.h>
int main(int argc, char **argv)
{
    static uint8_t bytes[1 << 20];
    static const uint64_t stack = 0x4242;
    struct kiblawen_sample sample = {
        .pc = 0x40100e, .sp = 0x1000, .stack = (const uint8_t *)&stack, .stack_len = sizeof stack, .stack_start = 0x1000,
    };
    struct kiblawen_module_frame frames[64];
    FILE *file = argc == 2 ? fopen(argv[1], "rb") : NULL;
    size_t len = file ? fread(bytes, 1, sizeof bytes, file) : 0;
    add_file(bytes, len, 0x401000, 0x1000);
    size_t found = index_files() ? walk_sample(&sample, frames, 64) : 0;
    for (size_t i = 0; i < found; i++)
        printf("0x%llx\\n", (unsigned long long)frames[i].pc);
    return 0;
}
"""
WALKS_IN_PYTHON = """
import kiblawen
walk = kiblawen.link("count").walk(kiblawen.Sample(0x40100e, 0x1000, 0, (0x4242).to_bytes(8, "little")))
print("\\n".join(hex(it.pc) for it in walk.frames))
"""
WALKED = "0x40100e\n0x4242\n"
WALK_SELF = """
cc -std=gnu11 -O1 $(pkg-config --cflags kiblawen) -o walk-self walk-self.c $(pkg-config --libs kiblawen)
mkdir tables
for file in ./walk-self $(ldd ./walk-self | awk '$2 == "=>" { print $3 } $1 ~ /^\\// { print $1 }'); do
    end=$(readelf -lW $file | awk '$1 == "LOAD" { end = $3 "+" $6 } END { print end }')
    sf_tool link tables/${file##*/}.sframe@$(printf 0x%x $((($end + 4095) / 4096 * 4096))) $file@0x0 >report
done
./walk-self tables samples
"""


class Tries:
    """What was tried, with a line for each."""

    def __init__(self):
        self.passed = self.failed = self.skipped = 0

    def check(self, name, passed, said=""):
        self.passed += bool(passed)
        self.failed += not passed
        print(f"{'ok' if passed else 'FAILED'}  {name}", flush=True)
        if said and not passed:
            print("\n".join(f"        {line}" for line in said.splitlines()[-20:]), flush=True)
        return passed

    def skip(self, name, why):
        self.skipped += 1
        print(f"skipped  {name}: {why}", flush=True)


class Root:
    """A root of its own, in which scripts run in the folder /try."""

    def __init__(self, base, path):
        self.path, self.room = path, f"{path}/try"
        if common.status_of(["cp", "-al", base, path]):
            common.fail(__name__, f"{base} cannot be copied")
        os.makedirs(self.room)
        self.environment = {"PATH": PATH, "HOME": "/root", "LC_ALL": "C"}

    def copy(self, *paths):
        for path in paths:
            shutil.copy(path, self.room)

    def run(self, script, begin=CHROOT):
        """Returns the exit status and what the script prints on both streams."""
        words = [*begin, self.path, "sh", "-euc", f"cd /try\n{script}"]
        how = {"stdin": subprocess.DEVNULL, "stdout": subprocess.PIPE, "stderr": subprocess.STDOUT}
        ran = subprocess.run(words, env=self.environment, timeout=SECONDS, check=False, **how)
        return ran.returncode, ran.stdout.decode(errors="replace")

    def ends_well(self, script, begin=CHROOT):
        """Whether the script ends with 0, and what it prints."""
        status, said = self.run(script, begin)
        return status == 0, said

    def has_toolchain(self):
        return self.ends_well("command -v rt")[0]


def block(page, heading, kind=""):
    """The lines of the first fenced block of this kind after a heading of a page."""
    with open(common.at_top(page), encoding="utf-8") as file:
        text = file.read()
    return re.search(rf"(?ms)^{heading}$.*?^```{kind}\n(.*?)^```", text)[1].splitlines()


def try_tutorial(tries, root, name):
    """The tutorial's sessions that need an assembler and a linker alone: its first table, look-ups and `verify`."""
    sessions, found = pages.read_page(common.at_top("docs", "tutorial.md"))
    for session in (it for it in sessions if it.needs == ["ld"]):
        _, said = root.run("set +e\n" + "".join(session.script()))
        found += session.compare(said)
    tries.check(f"{name}: the tutorial's first table is what the tutorial shows", not found, "\n".join(found))


def try_add(tries, root, name):
    """The table of a program, added to it."""
    staging.write(f"{root.room}/prints.c", PRINTS)
    status, said = root.run(
        "cc -o prints prints.c; kiblawen-add prints | head -n 1; ./prints runs; strip prints 2>warnings; kiblawen-add prints"
    )
    passed = status == 0 and said == "1 file: 1 added\nruns\n1 file: 1 had one\n"
    tries.check(f"{name}: kiblawen-add adds a table, which strip keeps, to a program that still runs", passed, f"status {status}\n{said}")


def try_process(tries, root, name, room):
    """A core file of this machine, walked in the root with the files that the process had mapped, and with their tables."""
    sorts = os.path.join(room, "sorts")
    library = os.path.realpath((common.output("cc", "-print-file-name=libc.so.6") or "").strip()) if shutil.which("cc") else ""
    process = stopping.stopped(f"{sorts}.core", sorts) if shutil.which("gdb") and library and stopping.compiled(SORTS, sorts) else None
    if process is None:
        tries.skip(f"{name}: procwalk", "there is no gdb with a C compiler here that makes a core file")
        return
    root.copy(process.core, sorts, library)
    files = f"sorts {os.path.basename(library)}"
    copies = " && ".join(f"mkdir -p root{os.path.dirname(path)} && cp {os.path.basename(path)} root{path}" for path in (sorts, library))
    for command, script in (
        ("procwalk", WITH.replace("FILES", files) + "sf_tool procwalk sorts.core 64 with/*"),
        ("procbacktrace", f"sf_tool procbacktrace sorts.core 64 {files}"),
        ("kiblawen-core", f"{copies} && kiblawen-core --root root sorts.core"),
    ):
        status, said = root.run(script)
        frames = stopping.listed(said)
        for peer, theirs in process.peers().items():
            passed = status == 0 and frames == theirs != {}
            tries.check(f"{name}: {command} lists the {sum(map(len, theirs.values()))} frames of {peer}", passed, f"status {status}\n{said}")


def try_tool(tries, root, path, room):
    name = os.path.basename(path)
    root.copy(path)
    tries.check("kiblawen: no toolchain is there", not root.has_toolchain())
    tries.check(f"kiblawen: {name} is installed, and its files are whole", *root.ends_well(f"dpkg -i {name} && dpkg --verify kiblawen"))
    try_tutorial(tries, root, "kiblawen")
    try_add(tries, root, "kiblawen")
    try_process(tries, root, "kiblawen", room)
    removed = "dpkg -P kiblawen && [ -z \"$(find /usr /etc -name '*kiblawen*' -o -name 'sf_tool*')\" ]"
    tries.check("kiblawen: nothing is left after it is removed", *root.ends_well(removed))


def try_library(tries, root, paths, room):
    """The walker of docs/library.md, on the tutorial's program that was made in another root."""
    names = " ".join(os.path.basename(path) for path in paths)
    root.copy(*paths, *filter(os.path.exists, [f"{room}/count"]))
    tries.check("libkiblawen-dev: no toolchain is there", not root.has_toolchain())
    installs = f"dpkg -i {names} && dpkg --verify libkiblawen0 libkiblawen-link0 libkiblawen-dev"
    tries.check(f"libkiblawen-dev: {names} are installed, and their files are whole", *root.ends_well(installs))
    staging.write(f"{root.room}/walks.c", "\n".join(block("docs/library.md", "## A walker", "c")) + WALKS)
    build = "cc -std=c11 -Wall -Wextra -Werror $(pkg-config --cflags kiblawen-link) walks.c -o walks"
    is_shared = f"readelf -d walks | grep -c '{shared.LOOK_UP.name}\\|{shared.LINK.name}' || true"
    for what, script, count in (
        ("a program with the archives walks a sample", f"{build} -l:libkiblawen_link.a -l:libkiblawen.a", 0),
        ("a program built by pkg-config walks a sample", f"{build} $(pkg-config --libs kiblawen-link)", 2),
        ("that program walks without it, by libkiblawen0 and libkiblawen-link0", "dpkg -P libkiblawen-dev >removed", 2),
    ):
        status, said = root.run(f"{script}\n./walks count\n{is_shared}")
        passed = (status, said) == (0, f"{WALKED}{count}\n")
        tries.check(f"libkiblawen-dev: {what}", passed, f"status {status}\n{said}")


def try_python(tries, root, path):
    """The walk of the C program, in the root where libkiblawen0 and libkiblawen-link0 are left."""
    name = os.path.basename(path)
    root.copy(path)
    tries.check(f"python3-kiblawen: {name} is installed", *root.ends_well(f"dpkg -i {name} && dpkg --verify python3-kiblawen"))
    status, said = root.run(f"python3 -c '{WALKS_IN_PYTHON}'")
    passed = (status, said) == (0, WALKED)
    tries.check("python3-kiblawen: a walk of the same sample in Python", passed, f"status {status}\n{said}")


def try_tarball(tries, root, path):
    name = os.path.basename(path)
    root.copy(path, common.at_top("example", "walk-self.c"))
    tries.check("tarball: no toolchain is there", not root.has_toolchain())
    tries.check(f"tarball: {name} is unpacked", *root.ends_well(f"tar xf {name} && mv {name[: -len('.tar.gz')]} kiblawen"))
    root.environment.update(PATH=f"{TARBALL}/bin:{PATH}", PKG_CONFIG_PATH=f"{TARBALL}/lib/pkgconfig", LD_LIBRARY_PATH=f"{TARBALL}/lib")
    try_tutorial(tries, root, "tarball")
    try_add(tries, root, "tarball")
    walks = "tarball: a program built by pkg-config walks its own stack as backtrace() does"
    if root.ends_well("test -e /proc/self/maps", WITH_PROC)[0]:
        tries.check(walks, *root.ends_well(WALK_SELF, WITH_PROC))
    else:
        tries.skip(walks, "/proc cannot be mounted, in which it finds the end of its stack")


def newest_clang(root):
    """The number of the newest clang of a root, or None."""
    names = glob.glob(f"{root.path}/usr/bin/clang-[0-9]*")
    numbers = [int(it) for it in (name.rpartition("-")[2] for name in names) if it.isdigit()]
    return max(numbers, default=None)


def try_modules(tries, root, paths):
    number = newest_clang(root)
    if number is None or not paths:
        tries.skip("LLVM modules", "there is no clang in the root" if paths else "the release has none")
        return
    name, clang = os.path.basename(paths[0]), f"clang-{number}"
    root.copy(paths[0])
    tries.check("LLVM modules: no toolchain is there", not root.has_toolchain())
    build = f"tar xf {name} && mv {name[: -len('.tar.gz')]} llvm && CLANG={clang} sh llvm/build.sh"
    tries.check(f"LLVM modules: {clang} builds program and library", *root.ends_well(build))
    root.environment.update(PATH=f"/try/llvm:{PATH}")
    try_tutorial(tries, root, "LLVM modules")
    if root.ends_well(f'grep -F "version $({clang} -dumpversion)," llvm/RELEASE.txt')[0]:
        same = "awk '/^(sf_tool.o|libkiblawen.a) / { print $3 \"  \" $1 }' RELEASE.txt | sha256sum -c"
        tries.check(f"LLVM modules: {clang} makes the bytes that the gate built", *root.ends_well(f"cd llvm\n{same}"))


def try_static(tries, room, paths):
    """Runs the static program in a folder of its own."""
    if not paths:
        tries.skip("static program", "the release has none")
        return
    empty = os.path.join(room, "empty")
    os.makedirs(empty)
    common.output("tar", "xf", paths[0], "-C", empty, "--strip-components=1")
    words = ["/bin/sf_tool", "gen", "1"]
    said = common.output("chroot", empty, *words)
    passed = said is not None and said == common.output(program.BUILT, *words[1:])
    tries.check("static program: it runs where there is no other file, and prints the same", passed, said or "")


def try_again(tries, room):
    """Makes the release in another folder, of the same commit, program, library and modules."""
    clone = os.path.join(room, "another folder")
    if common.status_of(["git", "clone", "-q", common.TOP, clone]):
        tries.skip("another folder", "the repository cannot be cloned")
        return
    for path in (*built.FILES, built.RECORD):
        to = os.path.join(clone, os.path.relpath(path, common.TOP))
        os.makedirs(os.path.dirname(to), exist_ok=True)
        shutil.copy(path, to)
    for folder in (it.folder for it in module.MODULES if it.is_made()):
        shutil.copytree(folder, os.path.join(clone, os.path.relpath(folder, common.TOP)))
    common.output(sys.executable, os.path.join(clone, "x"), "release", status=(0, 1))
    sums = [os.path.join(top, "dist", "SHA256SUMS") for top in (common.TOP, clone)]
    passed = os.path.exists(sums[1]) and len({staging.digest(path) for path in sums}) == 1
    tries.check("another folder: the same commit, program, library and modules give the same bytes", passed)


def one(pattern):
    """The one file of dist/ of this name."""
    found = glob.glob(os.path.join(release.DIST, pattern))
    if len(found) != 1:
        common.fail(__name__, f"dist/ has {len(found)} files {pattern}: `./x release` makes them")
    return found[0]


def base_root(given, room):
    if given:
        return os.path.abspath(given)
    if not shutil.which("debootstrap"):
        common.fail(__name__, "there is no debootstrap: name a ROOT, which has cc, binutils and pkg-config")
    print(f"stranger: {' '.join(DEBOOTSTRAP)} makes a root, which takes some minutes", flush=True)
    if common.status_of([*DEBOOTSTRAP, f"{room}/base"], stdout=subprocess.DEVNULL):
        common.fail(__name__, "debootstrap made no root")
    return f"{room}/base"


def main(words):
    parser = common.parser(__name__, __doc__)
    parser.add_argument("root", nargs="?", metavar="ROOT")
    given = parser.parse_args(words)
    tool, tarball = one("kiblawen_*.deb"), one("kiblawen-*-linux-*.tar.gz")
    library = [one(f"{it}_*.deb") for it in ("libkiblawen0", "libkiblawen-link0", "libkiblawen-dev")]
    python = one("python3-kiblawen_*.deb")
    modules, static = (glob.glob(os.path.join(release.DIST, f"kiblawen-*-{it}.tar.gz")) for it in ("llvm", "static-*"))
    if os.geteuid() != 0:
        common.fail(__name__, "chroot needs the rights of root")
    tries = Tries()
    sums = ["sha256sum", "--quiet", "-c", "SHA256SUMS"]
    tries.check("dist: the files have the sums of SHA256SUMS", common.status_of(sums, cwd=release.DIST) == 0)
    beside = os.path.dirname(os.path.abspath(given.root)) if given.root else None
    with tempfile.TemporaryDirectory(dir=beside, prefix="stranger-") as room:
        base = base_root(given.root, room)
        roots = [Root(base, f"{room}/{name}") for name in ("tool", "library", "tarball", "modules")]
        try_tool(tries, roots[0], tool, room)
        try_library(tries, roots[1], library, roots[0].room)
        try_python(tries, roots[1], python)
        try_tarball(tries, roots[2], tarball)
        try_modules(tries, roots[3], modules)
        try_static(tries, room, static)
        try_again(tries, room)
    print(f"{tries.passed} passed, {tries.failed} failed, {tries.skipped} skipped")
    return int(tries.failed > 0)
