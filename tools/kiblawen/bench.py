"""Measures the processor time of the program's commands, beside readelf, objdump, gdb and others.

    ./x bench             link, linkplt, merge, slim, verify, dump and lookup on the largest library for AMD64 or AArch64 on this machine,
                          beside readelf and objdump on the same file: which is faster, and by how much; and link on a copy of which no
                          page is in memory
    ./x bench FILE        the same on another executable or shared object
    ./x bench made        generated inputs: 2^15 to 2^21 small functions, one function of 2^14 to 2^20 rows, and a look-up in 2^20 functions
                          beside bench/pass.c, a C program that reads the same file and goes over it once (if there is a cc)
    ./x bench core        walks: generated core files of 4096 threads, with one section and with 200 files; a core file of a program 1000 calls
                          deep beside gdb and eu-stack; and one of a process with 40 files and 16 threads beside eu-stack
    ./x bench library     look-ups and walks with the C library on a generated section of 100,000 functions, beside bsearch() and libsframe,
                          and walks of a stack of 70 frames, beside glibc, libunwind and frame pointers
    ./x bench hostile ..  deliberately slow inputs, compared with limits; `./x bench hostile --help` says more
    ./x bench --tool PROGRAM ..   with another program

It needs the program (`sh demo/run`) and the library (`./x build --libraries`), binutils and, for the library, a C compiler. If there is a rustc, link,
linkplt and verify are also measured beside bench/plain.rs, a Rust program that makes or compares the same section and checks no input, and
that reads the whole file or only the parts that it needs. Each time is the least of seven, user and system time together. The commands of one
table are run in turn, seven times, a quick command many times in each round. The files made are in bench/out. Of these the gate runs only
`hostile --small`, which is a test of limits.
"""

import filecmp
import functools
import os
import re
import shlex
import shutil
import subprocess
import sys

from kiblawen import cold, common, elf, hostile, program
from kiblawen.measure import Command, measure
from kiblawen.stopping import compiled, stopped

OUT = common.at_top("bench", "out")
OUTPUT = os.path.join(OUT, "output")
LIBRARIES = ["/usr/lib", "/usr/lib64", "/lib", "/lib64"]
# What bench/plain.rs does, with the section that the program makes or compares; and how it reads the file.
PLAIN = {"link": "sframe", "linkplt": "plt", "verify": "sframe"}
FORMS = {"whole": "the whole file", "parts": "the parts"}
READELF, OBJDUMP = "readelf --debug-dump=frames-interp", "objdump --dwarf=frames-interp"
# The section of the program's own example, for the made core files.
EXAMPLE = f"eh-amd64:{common.at_top('crates', 'sf_tool', 'data', 'e1')}@0x2000"
DEEP = """
#include <stdlib.h>
int sum;
__attribute__((noinline)) int deep(int n)
{
    volatile char bytes[n % 64 + 1];
    bytes[n % 64] = 1;
    if (n == 0)
        abort();
    sum += deep(n - 1);
    return bytes[n % 64];
}
int main(void) { return deep(1000); }
"""
# A library of 1000 functions, and a program that calls through as many of them as it is given, in 16 threads.
LIBRARY = "".join(f"int f{it}(int n) {{ volatile int kept[{it % 7 + 1}]; kept[0] = n; return kept[0] + n; }}\n" for it in range(999)) + """
int go(int (*f)(int), int n) { volatile int kept = n; return f(n) + kept; }
"""
THROUGH_LIBRARIES = """
#include <dlfcn.h>
#include <pthread.h>
#include <stdlib.h>
#include <unistd.h>
static int (*through[64])(int (*)(int), int);
static int count;
static pthread_t first;
static pthread_barrier_t all_called;
static int call(int n)
{
    if (n == 0) {
        pthread_barrier_wait(&all_called);
        if (pthread_self() == first)
            abort();
        pause();
    }
    return through[n % count](call, n - 1) + 1;
}
static void *run(void *unused) { call(60); return unused; }
int main(int words, char **names)
{
    pthread_t thread;
    first = pthread_self();
    for (count = 0; count + 1 < words; count++)
        through[count] = (int (*)(int (*)(int), int))dlsym(dlopen(names[count + 1], RTLD_NOW), "go");
    pthread_barrier_init(&all_called, 0, 16);
    for (int i = 1; i < 16; i++)
        pthread_create(&thread, 0, run, 0);
    return call(60);
}
"""


def out(name):
    return os.path.join(OUT, name)


def say(text=""):
    print(text, flush=True)


def said(*words):
    """What a command prints, which has to end with 0."""
    ran = subprocess.run(words, stdout=subprocess.PIPE, check=False)
    if ran.returncode != 0:
        common.fail(__name__, f"{' '.join(words)} ended with {ran.returncode}")
    return ran.stdout.decode(errors="replace")


def works(*words):
    """Whether a command is there and ends with 0. Nothing that it prints is shown."""
    quiet = {"stdin": subprocess.DEVNULL, "stdout": subprocess.DEVNULL, "stderr": subprocess.DEVNULL}
    return shutil.which(words[0]) is not None and subprocess.run(words, check=False, **quiet).returncode == 0


def make(name, kind, count):
    """Makes an input, by a process of its own: what it takes is not to count for the program."""
    subprocess.run(common.module_words("made", out(name), kind, str(count)), env=common.module_environment(), check=True)


def largest():
    """The largest library of the machine."""
    found = []
    for top in (it for it in LIBRARIES if not os.path.islink(it)):
        for folder, _, names in os.walk(top):
            found += [os.path.join(folder, name) for name in names if ".so" in name]
    sizes = {it: os.path.getsize(it) for it in found if os.path.isfile(it) and not os.path.islink(it)}
    for path in sorted(sizes, key=sizes.get, reverse=True):
        if elf.machine(path):
            return path
    return common.fail(__name__, "no library was found")


def compare(name, time, other, than):
    """A sentence on two times."""
    times = max(time, than) / min(time, than)
    if times < 1.05:
        say(f"{name} takes the time of {other}.")
    else:
        say(f"{name} is {times:.1f} times as {'fast' if time < than else 'slow'} as {other}.")


def speed(time, count, what):
    return f"{count / time:.0f} {what} a second"


def made(tool):
    say("Processor time of `sf_tool link` on made .eh_frame sections (the least of seven), and its peak memory")
    for what, powers in ("functions", range(15, 22)), ("rows", range(14, 21, 2)):
        names = {power: f"2^{power} {what}" for power in powers}
        for power in powers:
            make(f"made.{power}", what, 1 << power)
        commands = [Command(names[it], tool, "link", out("sframe@0x50000000"), f"eh-amd64:{out(f'made.{it}')}@0x40000000") for it in powers]
        say()
        times = measure(commands, OUTPUT)
        for power in powers:
            say(f"{names[power]:<42} {times[names[power]] * 1e6 / (1 << power):10.3f} microseconds each")
    say()
    make("made", "functions", 1 << 20)
    said(tool, "link", out("sframe@0x50000000"), f"eh-amd64:{out('made')}@0x40000000")
    commands = [Command("sf_tool lookup, in 2^20 functions", tool, "lookup", out("sframe@0x50000000"), "0x1005")]
    if works("cc", "-O2", "-o", out("pass"), common.at_top("bench", "pass.c")):
        commands.append(Command("bench/pass.c, on the same file", out("pass"), out("sframe"), "0x50000000"))
    times = list(measure(commands, OUTPUT).values())
    if len(times) == 2:
        say(f"sf_tool lookup takes {times[0] / times[1]:.2f} of its time.")
    shutil.rmtree(OUT)


def whole_process(tool):
    """Walks a process of 16 threads through all its files."""
    libraries = [out(f"lib{it}.so") for it in range(37)]
    made = compiled(LIBRARY, libraries[0], "-shared", "-fPIC") and compiled(THROUGH_LIBRARIES, out("through"), "-pthread")
    for library in libraries[1:] if made else ():
        shutil.copyfile(libraries[0], library)
    process = stopped(out("through.core"), out("through"), *libraries) if made and shutil.which("gdb") else None
    if process is None:
        say("No core file of a process can be had here: that wants a C compiler and gdb.")
        return
    name = f"sf_tool procbacktrace, {len(process.files)} files and {len(process.frames)} threads"
    commands = [Command(name, tool, "procbacktrace", process.core, "1024", *process.files)]
    if shutil.which("eu-stack"):
        commands.append(Command("eu-stack, the same process", "eu-stack", "-n", "0", "--core", process.core))
    times = measure(commands, OUTPUT)
    say(speed(times[name], sum(map(len, process.lines.values())), "frames"))
    if len(times) == 2:
        compare("procbacktrace", times[name], "eu-stack", times["eu-stack, the same process"])


def core(tool):
    say("Processor time of walks (the least of seven), and peak memory")
    say()
    make("threads", "threads", 4096)
    said(tool, "link", out("one@0x3000"), EXAMPLE)
    make("process", "process", 200)
    files = [out(f"process.{it}") for it in range(200)]
    times = measure([
        Command("sf_tool walk, 4096 threads of 64 frames", tool, "walk", out("one@0x3000"), out("threads"), "64"),
        Command("sf_tool procwalk, the same over 200 files", tool, "procwalk", out("process"), "64", *files),
    ], OUTPUT)
    for time in times.values():
        say(speed(time, 4096 * 64, "frames"))
    deep, core_file, section = out("deep"), out("core"), out("deep.sframe@0x8000000")
    with open(out("deep.c"), "w", encoding="utf-8") as file:
        file.write(DEEP)
    if works("cc", "-O1", "-static", "-no-pie", "-o", deep, out("deep.c")):
        works("gdb", "-nx", "-batch", "-ex", "set confirm off", "-ex", "run", "-ex", f"generate-core-file {core_file}", deep)
    if os.path.exists(core_file):
        said(tool, "link", section, f"{deep}@0x0")
        commands = [
            Command("sf_tool walk, 1000 frames", tool, "walk", section, core_file, "1024"),
            Command("sf_tool backtrace, linking the program", tool, "backtrace", out("again@0x8000000"), core_file, "1024", f"{deep}@0x0"),
            Command("gdb backtrace", "gdb", "-nx", "-batch", "-ex", "backtrace", deep, core_file),
        ]
        if shutil.which("eu-stack"):
            commands.append(Command("eu-stack", "eu-stack", "-n", "0", "-e", deep, "--core", core_file))
        measure(commands, OUTPUT)
    else:
        say("No core file of a program can be had here: that wants a static C library, and gdb.")
    whole_process(tool)
    shutil.rmtree(OUT)


def plain_name(command, form):
    return f"bench/plain.rs {command}, {FORMS[form]}"


def does_the_same(command, form, at, path):
    """Whether bench/plain.rs makes the section that the program made; or whether it agrees with that section, and not with one that has another
    last byte, which is of an offset in a row."""
    section, made = out(PLAIN[command]), out("plain.sframe")
    if command != "verify":
        return works(out("plain"), command, form, made, at, path) and filecmp.cmp(made, section, shallow=False)
    shutil.copyfile(section, made)
    with open(made, "r+b") as file:
        file.seek(-1, os.SEEK_END)
        last = file.read()[0]
        file.seek(-1, os.SEEK_END)
        file.write(bytes([last ^ 1]))
    return works(out("plain"), command, form, section, at, path) and common.status_of([out("plain"), command, form, made, at, path]) == 1


def plain_commands(at, path):
    """The commands of bench/plain.rs that do what those of the program do, if there is a rustc."""
    words = ["rustc", "--edition", "2021", "-O", "-C", "panic=abort", "-o", out("plain"), common.at_top("bench", "plain.rs")]
    if not works(*words):
        return []
    found = []
    for command in PLAIN:
        section = out(PLAIN[command] if command == "verify" else "plain.sframe")
        for form in FORMS:
            if does_the_same(command, form, at, path):
                found.append(Command(plain_name(command, form), out("plain"), command, form, section, at, path))
    return found


def parts_of(path):
    """How many bytes link needs of a file: its header, its section headers, their names and its call frame information."""
    with open(path, "rb") as file:
        found = elf.sections(file)
        file.seek(62)
        names = int.from_bytes(file.read(2), "little")
    needed = sum(it.size for number, it in enumerate(found) if number == names or it.name == ".eh_frame")
    return 64 + 64 * len(found) + needed


def in_columns(title, cells):
    say(f"{title:<42}" + "".join(f"{it:>14}" for it in cells))


def beside(commands, times, path):
    """Shows the times of link, linkplt and verify as parts of those of others, and their memory beside the bytes that they read and write."""
    in_columns("Time, as a part of that of", PLAIN)
    in_columns("readelf", [f"{times[f'sf_tool {it}'] / times[READELF]:.3f}" for it in PLAIN])
    for form in FORMS:
        plain = {it: times.get(plain_name(it, form)) for it in PLAIN}
        in_columns(f"bench/plain.rs, {FORMS[form]}", [f"{times[f'sf_tool {it}'] / plain[it]:.2f}" if plain[it] else "-" for it in PLAIN])
    say()
    memory = {it.name: it.memory() for it in commands}
    in_columns("Peak memory in MB", PLAIN)
    in_columns("sf_tool", [memory[f"sf_tool {it}"] for it in PLAIN])
    for form in FORMS:
        in_columns(f"bench/plain.rs, {FORMS[form]}", [memory.get(plain_name(it, form), "-") for it in PLAIN])
    bytes_of = {it: parts_of(path) + 4 * os.path.getsize(out(PLAIN[it])) for it in PLAIN}
    in_columns("the parts and four times the section", [f"{bytes_of[it] / (1 << 20):.0f}" for it in PLAIN])


def of_cold_file(path, at, tool):
    """Measures link on a copy of a file of which no page is in memory."""
    copy = out("copy")
    shutil.copyfile(path, copy)
    commands = [Command("sf_tool link", tool, "link", out(f"sframe@{at}"), f"{copy}@0x0")]
    for form in FORMS:
        if does_the_same("link", form, at, copy):
            commands.append(Command(plain_name("link", form), out("plain"), "link", form, out("plain.sframe"), at, copy))
    try:
        times = cold.measure(commands, copy, OUTPUT)
    except OSError as fault:
        say(f"Not measured: link of a file of which no page is in memory ({fault})")
        return
    finally:
        os.remove(copy)
    in_columns("Without pages of the file in memory", ("processor time", "time in all"))
    for name, seconds in times.items():
        in_columns(name, [f"{it * 1e3:.2f} ms" for it in seconds])
    say("(The time in all of link has the wait until the disk has stored OUT. What a disk has in a memory of its own stays there.)")


def of_file(path, tool):
    if elf.machine(path) is None or elf.last_loaded(path) == 0:
        common.fail(__name__, f"{path} has no loaded segment")
    at = f"{elf.page_after(path):#x}"
    section, source = out(f"sframe@{at}"), f"{path}@0x0"
    say(f"File: {path}, {os.path.getsize(path)} bytes")
    say("Processor time (the least of seven measurements; less is faster) and peak memory; on a large file this takes a minute or two")
    say()
    counts = said(tool, "link", section, source).splitlines()[-1]
    said(tool, "linkplt", out(f"plt@{at}"), source)
    said(tool, "merge", out(f"merged@{at}"), section)
    if not filecmp.cmp(out("merged"), out("sframe"), shallow=False):
        common.fail(__name__, "a section merged for its own address is another one")
    Command("sf_tool dump", tool, "dump", section).run(OUTPUT)
    # Only two lines are read: what this process takes itself hides what the commands take.
    with open(OUTPUT, encoding="utf-8") as file:
        rows, function = int(next(file).split()[8]), next(file, "").split()
    commands = [
        Command("sf_tool link", tool, "link", section, source),
        Command("sf_tool merge", tool, "merge", out(f"merged@{at}"), section),
        Command("sf_tool linkplt", tool, "linkplt", out(f"plt@{at}"), source),
        Command("sf_tool slim", tool, "slim", out(f"slimmed@{at}"), section),
        Command("sf_tool upgrade", tool, "upgrade", out(f"upgraded@{at}"), section),
        Command("sf_tool verify", tool, "verify", section, source),
        Command("sf_tool dump", tool, "dump", section),
        *(Command("sf_tool lookup, of one address", tool, "lookup", section, it) for it in function[1:2]),
    ]
    commands += plain_commands(at, path)
    commands += [Command(READELF, *READELF.split(), path), Command(OBJDUMP, *OBJDUMP.split(), path)]
    times = measure(commands, OUTPUT)
    link, merge, verify, dump = (times[f"sf_tool {it}"] for it in ("link", "merge", "verify", "dump"))
    readelf = times[READELF]
    say()
    say(f"The section: {counts}, {rows} rows, {os.path.getsize(out('sframe'))} bytes")
    say()
    compare("link", link, READELF, readelf)
    compare("link", link, OBJDUMP, times[OBJDUMP])
    compare("verify", verify, "link", link)
    compare("merge", merge, READELF, readelf)
    compare("dump", dump, READELF, readelf)
    say(f"Of the time of readelf link takes {link / readelf:.3f}, merge {merge / readelf:.3f} and dump {dump / readelf:.3f}.")
    functions = int(counts.split()[1]) + int(counts.split()[3])
    say(f"link: {speed(link, functions, 'functions')}, {speed(link, rows, 'rows')}")
    say(f"merge: {speed(merge, functions, 'functions')}; dump: {speed(dump, functions, 'functions')}")
    say("(readelf and objdump compute and print the rows of each function; link computes them and writes a section; merge and dump read one.)")
    say()
    beside(commands, times, path)
    say()
    of_cold_file(path, at, tool)
    os.remove(OUTPUT)


def built(compiler, name, *options):
    """Returns the exit status of the compiler for a program of bench/ with the C library."""
    words = ["-std=gnu11", "-O2", "-Wall", "-Wextra", f"-I{common.at_top('include')}", *options, "-o", out(name)]
    return common.status_of([*compiler, *words, common.at_top("bench", f"{name}.c"), program.LIBRARY, "-ldl"])


def walkers(compiler, tool):
    """Times walks of one stack by the C library and by others, with the tables of the program and of the files that it loads."""
    status = built(compiler, "walkers", "-fno-omit-frame-pointer", "-fno-optimize-sibling-calls", "-Wl,--build-id")
    if status:
        return status
    loaded = re.findall(r"/\S+", common.output("ldd", out("walkers")) or "")
    words = [sys.executable, common.at_top("tools", "kiblawen-add"), "--lenient", "--tool", tool, "--into-store", out("store")]
    said(*words, out("walkers"), *loaded)
    say()
    return common.status_of([out("walkers"), out("store")])


def library(tool):
    if not os.access(program.LIBRARY, os.R_OK):
        common.fail(__name__, "the library is not built: ./x build --libraries builds it")
    os.makedirs(OUT, exist_ok=True)
    compiler = shlex.split(os.environ.get("CC") or "cc")
    status = built(compiler, "library") or common.status_of([out("library")]) or walkers(compiler, tool)
    shutil.rmtree(OUT)
    return status


def main(words):
    if words[:1] == ["hostile"]:
        return hostile.main(words[1:])
    parser = common.parser(__name__, __doc__)
    program.add_option(parser)
    parser.add_argument("what", nargs="?", metavar="FILE|made|core|library")
    given = parser.parse_args(words)
    if given.what == "library":
        return library(program.find(__name__, given.tool))
    for command in ("readelf", "objdump"):
        if not shutil.which(command):
            common.fail(__name__, f"{command} is not on PATH")
    measured = {"made": made, "core": core}.get(given.what)
    if measured is None:
        path = os.path.abspath(given.what) if given.what else largest()
        measured = functools.partial(of_file, path)
        if not os.access(path, os.R_OK):
            common.fail(__name__, f"{path} cannot be read")
    tool = program.find(__name__, given.tool)
    os.environ["LC_ALL"] = "C"
    shutil.rmtree(OUT, ignore_errors=True)
    os.makedirs(OUT)
    measured(tool)
    return 0
