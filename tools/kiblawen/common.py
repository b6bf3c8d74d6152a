"""What the commands share: the repository's folder, their options, and runs of other commands."""

import argparse
import os
import subprocess
import sys

TOOLS = os.path.dirname(os.path.dirname(os.path.abspath(__file__)))
TOP = os.path.dirname(TOOLS)
# How long a run of another command may take.
SECONDS = 300


def at_top(*names):
    """A path below the repository's folder."""
    return os.path.join(TOP, *names)


def name_of(module):
    """A command's name, of the module's `__name__`."""
    return module.rpartition(".")[2]


def fail(module, text):
    """Ends a command with status 1 and a line."""
    sys.exit(f"./x {name_of(module)}: {text}")


def parser(module, text):
    """A parser of a command's words, with the module's text as its help."""
    as_it_is = argparse.RawDescriptionHelpFormatter
    return argparse.ArgumentParser(prog=f"./x {name_of(module)}", description=text.strip(), formatter_class=as_it_is, allow_abbrev=False)


def module_words(name, *words):
    """The words by which a module is run by a process of its own."""
    return [sys.executable, "-m", f"kiblawen.{name}", *words]


def module_environment():
    """The environment in which `module_words` find the module."""
    return {**os.environ, "PYTHONPATH": TOOLS}


def status_of(words, **how):
    """Runs a command to its end. Returns its exit status, of a signal as a shell has it."""
    status = subprocess.run(words, check=False, **how).returncode
    return status if status >= 0 else 128 - status


def output(*words, status=(0,)):
    """Returns what a command prints, or None if its exit status is not among `status`."""
    ran = subprocess.run(words, stdin=subprocess.DEVNULL, stdout=subprocess.PIPE, stderr=subprocess.PIPE, timeout=SECONDS, check=False)
    return ran.stdout.decode(errors="replace") if ran.returncode in status else None


def say(line):
    """Prints a line. If the reader of standard output has ended, later lines are printed nowhere."""
    try:
        print(line, flush=True)
    except BrokenPipeError:
        os.dup2(os.open(os.devnull, os.O_WRONLY), sys.stdout.fileno())


def shown(text):
    """A name or a line for people: each byte of a control character or another one that isn't printed is `\\x` and two digits."""
    return text if text.isprintable() else "".join(it if it.isprintable() else escaped(it) for it in text)


def escaped(character):
    return "".join(f"\\x{byte:02x}" for byte in character.encode("utf-8", "surrogateescape"))


def become(*words):
    """Goes on as another command, which gets the signals and whose exit status is that of this one."""
    sys.stdout.flush()
    os.execvp(words[0], words)


def version():
    with open(at_top("VERSION"), encoding="utf-8") as file:
        return file.read().strip()
