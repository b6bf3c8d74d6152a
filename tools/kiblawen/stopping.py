"""Processes that gdb stops, for the comparisons with other tools: their core files, and the frames that gdb and eu-stack show."""

import os
import re
import shutil
import subprocess

from kiblawen import common, elf

NO_CORE = "gdb makes no core file here"
# What gdb is told before a program runs, and after it stopped.
BEFORE = ("set confirm off", "set backtrace past-main on", "set breakpoint pending on", "set debuginfod enabled off")
EACH_FRAME = 'frame apply all -q printf "frame %#lx\\n", $pc'
AFTER = ("info proc mappings", "echo thread\\n", "thread apply all backtrace", "echo thread\\n", f"thread apply all {EACH_FRAME}")
GDB_THREAD, GDB_LINE, GDB_FRAME = r"Thread \d+ \(.*(?:LWP|process) (\d+)", r"#\d+ +(0x\w+)", r"frame (0x\w+)"
EU_STACK_THREAD, EU_STACK_FRAME = r"TID (\d+):", r"#\d+ +(0x\w+)"
THREAD, FRAME = r"thread \d+ pid (\d+)", r" +#\d+ pc (0x\w+)"
MAPPED = re.compile(r"^ +0x\w+ +0x\w+ .* (/.*)$", re.MULTILINE)


def by_thread(text, thread, frame):
    """The program counters that a text has of each thread, by the thread's number."""
    found, counters = {}, None
    for line in text.splitlines():
        heading, shown = re.match(thread, line), re.match(frame, line)
        if heading:
            counters = found.setdefault(int(heading[1]), [])
        elif shown and counters is not None:
            counters.append(int(shown[1], 16))
    return found


def listed(text):
    """The program counters that a command of the program lists."""
    return by_thread(text, THREAD, FRAME)


def in_words(threads):
    """Program counters of threads as text."""
    return "; ".join(" ".join(map(hex, it)) for it in threads.values())


class Stopped:
    """A process that was stopped: its core file, the ELF files that it had mapped, and its frames as others show them. `lines` are those of
    the lines on which gdb shows a program counter, and `frames` all of gdb's, those of inlined functions too."""

    def __init__(self, core, said):
        mappings, lines, frames = said.split("\nthread\n")
        self.core = core
        self.files = [it for it in dict.fromkeys(MAPPED.findall(mappings)) if elf.machine(it)]
        self.lines, self.frames = by_thread(lines, GDB_THREAD, GDB_LINE), by_thread(frames, GDB_THREAD, GDB_FRAME)
        self.eu_stack = None
        if shutil.which("eu-stack"):
            self.eu_stack = by_thread(common.output("eu-stack", "-n", "0", "--core", core, status=(0, 1)) or "", EU_STACK_THREAD, EU_STACK_FRAME)

    def peers(self):
        """The frames of all threads, by who shows them."""
        return {"gdb": self.lines, **({} if self.eu_stack is None else {"eu-stack": self.eu_stack})}


def stopped(core, *words, until=None):
    """Runs a program up to a function, or up to a signal that it doesn't catch. None if gdb makes no core file."""
    at = [f"break {until}"] if until else ["handle SIGSEGV nostop noprint pass"]
    commands = [*BEFORE, *at, "run", f"generate-core-file {core}", *AFTER]
    said = common.output("gdb", "-nx", "-batch", *(word for it in commands for word in ("-ex", it)), "--args", *words)
    return Stopped(core, said) if said and os.path.exists(core) else None


def compiled(source, path, *options, language="c"):
    """Whether the machine's compiler made this file of C or C++."""
    os.makedirs(os.path.dirname(path), exist_ok=True)
    always = ["-w", "-O1", "-fasynchronous-unwind-tables", "-Wl,--build-id"]
    words = [{"c": "cc", "c++": "c++"}[language], "-x", language, *always, *options, "-o", path, "-", "-ldl"]
    return bool(shutil.which(words[0])) and subprocess.run(words, input=source.encode(), capture_output=True, check=False).returncode == 0
