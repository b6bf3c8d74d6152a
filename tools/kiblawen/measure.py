"""The processor time and the peak memory of commands.

Time is user and system time together, the least of seven rounds. The commands are run in turn in each round, so that other work of the machine
affects all of them alike. A command that is too quick to be measured is run repeatedly, and the time divided. Its output goes to a file. It has
to end with 0; readelf and objdump may end with 1 if they print something, as they do on some files that they read whole.
"""

import os
import resource
import subprocess

from kiblawen import common

# A processor's time is counted in steps of up to 10 ms on some machines: 20 of them are measured well enough.
ENOUGH = 0.2
ROUNDS = 7


def run(words, out, **how):
    """Runs a command once. Returns its status, its processor time in seconds, and its peak memory in KiB."""
    with open(out, "wb") as file:
        child = subprocess.Popen(words, stdout=file, **how)
        _, status, used = os.wait4(child.pid, 0)
    child.returncode = os.WEXITSTATUS(status) if os.WIFEXITED(status) else -os.WTERMSIG(status)
    return child.returncode, used.ru_utime + used.ru_stime, used.ru_maxrss


class Command:
    def __init__(self, name, *words):
        self.name, self.words = name, words
        self.peak = 0
        self.times = 1
        self.least = float("inf")

    def run(self, out):
        """Runs it once; returns its processor time in seconds."""
        status, seconds, peak = run(self.words, out)
        may_be_1 = os.path.basename(self.words[0]) in ("readelf", "objdump") and os.path.getsize(out) > 0
        if status != 0 and not (status == 1 and may_be_1):
            common.fail("bench", f"{' '.join(self.words)} ended with {status}")
        self.peak = max(self.peak, peak)
        return seconds

    def warm(self, out):
        """The first run tells how many runs are long enough together; it also brings the files into memory."""
        self.times = max(1, round(ENOUGH / max(self.run(out), 0.001)))

    def measure(self, out):
        self.least = min(self.least, sum(self.run(out) for _ in range(self.times)) / self.times)

    def memory(self):
        """Its peak memory in MB."""
        # What this process has itself counts for the command too, until the command begins: less can't be told.
        own = resource.getrusage(resource.RUSAGE_SELF).ru_maxrss
        return f"{self.peak / 1024:.0f}" if self.peak > 1.1 * own else f"<{own / 1024:.0f}"

    def line(self):
        return f"{self.name:<42} {self.least * 1e3:10.2f} ms {self.memory():>6} MB"


def measure(commands, out):
    """Measures these commands in turn, and prints a line for each with the time and the memory. Returns the seconds by name."""
    for command in commands:
        command.warm(out)
    for _ in range(ROUNDS):
        for command in commands:
            command.measure(out)
    for command in commands:
        print(command.line(), flush=True)
    return {command.name: command.least for command in commands}
