"""Runs the program on the cases of cases/, the files *.cases.

    ./x cases                             all, with the program that `rt ci` or `rt run` built
    ./x cases TOPIC ..                    the cases of cases/TOPIC.cases, or of a file if TOPIC ends with .cases
    ./x cases --tool PROGRAM [TOPIC ..]   with another program, such as /usr/bin/sf_tool

Each run has its own folder with the files of its case, no environment, an empty input, and 60 seconds. The status, both streams and every file
that exists afterwards are compared byte by byte. A run that differs is shown with the expected and actual results. The last line is `N passed, M
failed`; the status is 1 if a run differs, if a case cannot be read, or if nothing was run. Without --tool it takes crates/sf_tool/out/sf_tool,
and refuses to start if a source is newer. It makes and compares some twenty thousand runs, as many in parallel as there are processors.

A file of cases is text in UTF-8. Each line begins with a key. Blanks before the key, empty lines and lines that begin with # are ignored. Numbers
are decimal, or hexadecimal after 0x. For example:

    use sframe.bytes

    case functions of two sections that share a byte
      words merge m@0x3000 o@0x3000 p@0x3000
      file o one-function-section
      file p one-function-section
        at 0x1c e9 df ff ff
      status 5
      errors refused link Overlap 0x1000 0x0 0x1005 0x1

Bytes:

    bytes NAME            begins named bytes
    use FILE              reads another file of this folder, for its named bytes
    XX XX ..              appends bytes, two lower-case hexadecimal digits each, to the bytes begun last
    at OFFSET BYTE ..     writes these bytes at this offset, over existing ones and past their end
    cut LENGTH            keeps only the first LENGTH bytes
    zeros LENGTH          adds zeros to the file up to LENGTH, which are never written: a file of 2^40 bytes takes no room then

A case:

    case NAME             begins a case. The name is the fact that the run shows, and is unique in the file
    words WORD ..         appends words of the command line. The line is required, even without words
    word TEXT             appends one word: the rest of the line, which may contain blanks or be empty
    rawword BYTE ..       appends one word of these bytes
    times N WORD          appends a word N times
    file NAME [BYTES]     begins a file that exists before the run, without bytes or with named ones. NAME may have folders
    rawfile BYTES BYTE .. begins such a file with named bytes, whose name is these bytes
    cut FIRST LAST        below `file`: runs the case once for each length from FIRST to LAST, with the file cut to it. In `output` and
                          `errors` LENGTH is this length, as 0x and hexadecimal digits
    row VALUE ..          runs the case once with these values, at most nine: $1 is the first, $2 the second, and so on, in the words and in
                          `output` and `errors`
    status N              the exit status
    output TEXT           one line on standard output. Without such lines nothing is printed
    errors TEXT           one line on standard error
    outputs BYTES         standard output has the bytes of this name
    leaves NAME [BYTES]   begins the bytes that this file has afterwards
    closed STREAM         the stream (input, output or errors) is closed
    full STREAM           the stream (output or errors) is /dev/full
    to STREAM NAME        the stream (output or errors) goes to this file
    memory N              the run has N KiB of address space

Each file without a line `leaves` has to be as before, and no other file may exist. So a case of a refused run also shows that OUT was not created.
"""

import concurrent.futures
import itertools
import os
import shlex
import subprocess
import tempfile

from kiblawen import common, program

FOLDER = common.at_top("cases")
SECONDS = 60
DESCRIPTORS = {"input": 0, "output": 1, "errors": 2}


class Malformed(Exception):
    """A line that the format does not have."""


# Of a file that ends with zeros this much is compared.
MOST_COMPARED = 1 << 30


class Extended:
    """The contents of a file: bytes, and then zeros up to a length, which are never written."""

    def __init__(self, bytes, length):
        self.bytes = bytes
        self.length = length

    def is_in(self, file):
        """Whether a file of this length begins so."""
        pieces = iter(lambda: file.read(1 << 20), b"")
        is_same = file.read(len(self.bytes)) == self.bytes
        return is_same and all(piece.count(0) == len(piece) for piece in itertools.islice(pieces, MOST_COMPARED >> 20))


class Case:
    """The words of a run, the files before it, and what it leaves."""

    def __init__(self, place, name):
        self.place = place
        self.name = name
        self.words = None
        self.files = {}
        self.cut = None
        # Values for the run, one for each list.
        self.rows = []
        # Shell commands that prepare the streams and the memory.
        self.prepare = []
        self.status = None
        self.output = b""
        self.errors = b""
        self.leaves = {}

    def runs(self):
        """This case; or a case for each row of values; or, where a file is cut at each length of a range, a case for each."""
        if self.rows:
            yield from map(self.filled, self.rows)
            return
        if self.cut is None:
            yield self
            return
        name, first, last = self.cut
        for length in range(first, last + 1):
            run = Case(self.place, f"{self.name}, at {length}")
            run.words, run.prepare, run.status, run.leaves = self.words, self.prepare, self.status, self.leaves
            run.files = {**self.files, name: self.files[name][:length]}
            run.output = self.output.replace(b"LENGTH", b"0x%x" % length)
            run.errors = self.errors.replace(b"LENGTH", b"0x%x" % length)
            yield run

    def filled(self, values):
        """This case with `$1` for the first value, `$2` for the second, and so on."""

        def fill(text):
            for place, value in enumerate(values, 1):
                text = text.replace(b"$%d" % place, value.encode())
            return text

        run = Case(self.place, f"{self.name}, with {' '.join(values)}")
        run.words, run.output, run.errors = [*map(fill, self.words)], fill(self.output), fill(self.errors)
        run.prepare, run.status, run.leaves, run.files = self.prepare, self.status, self.leaves, self.files
        return run


def number(word):
    """A number in decimal, or in hexadecimal after 0x."""
    try:
        return int(word, 0)
    except ValueError:
        raise Malformed(f"`{word}` is no number") from None


def hex_bytes(words):
    """Bytes of two hexadecimal digits each."""
    if any(len(word) != 2 for word in words):
        raise Malformed("a byte has two digits")
    try:
        return bytes.fromhex("".join(words))
    except ValueError:
        raise Malformed("a byte has two hexadecimal digits") from None


def is_byte(word):
    return len(word) == 2 and all(digit in "0123456789abcdef" for digit in word)


class Reader:
    """The cases of one file, and the lines that cannot be read. A case with such a line is not run."""

    def __init__(self, path):
        self.bytes = {}
        self.cases = []
        self.faults = []
        # The case that is being read.
        self.case = None
        # The table and the name whose bytes the next line may continue or change.
        self.open = None
        self.read(path)
        for case in self.cases:
            if case.words is None or case.status is None:
                self.faults.append((case, f"{case.place}: a case needs the lines `words` and `status`"))
        faulty = [case for case, _ in self.faults]
        self.cases = [case for case in self.cases if case not in faulty]

    def read(self, path):
        with open(path, encoding="utf-8") as lines:
            for at, line in enumerate(lines, 1):
                line = line.strip(" \n")
                if not line or line.startswith("#"):
                    continue
                place = f"{os.path.basename(path)}:{at}"
                key, _, rest = line.partition(" ")
                try:
                    if key == "case" and rest:
                        self.begin_case(place, rest)
                    elif key == "use" and rest:
                        self.case = self.open = None
                        self.read(os.path.join(os.path.dirname(path), rest))
                    else:
                        self.line(key, rest)
                except (Malformed, OSError) as fault:
                    self.faults.append((self.case, f"{place}: {fault}"))

    def begin_case(self, place, name):
        self.case, self.open = Case(place, name), None
        if any(name == case.name for case in self.cases):
            raise Malformed("a case of this name is there already")
        self.cases.append(self.case)

    def line(self, key, rest):
        words = rest.split()
        if is_byte(key):
            self.append(hex_bytes([key, *words]))
        elif key == "bytes" and len(words) == 1:
            self.case = None
            self.begin_bytes(self.bytes, words)
        elif key in ("at", "cut", "zeros") and words:
            getattr(self, key)(*words)
        elif self.case is None or not self.case_line(self.case, key, rest, words):
            raise Malformed(f"`{key}` is no line that can be here")

    def case_line(self, case, key, rest, words):
        """Reads a line of a case. False where it is none."""
        if key in ("file", "leaves") and len(words) in (1, 2):
            self.begin_bytes(case.files if key == "file" else case.leaves, words)
            return True
        if key == "rawfile" and len(words) > 1:
            self.begin_bytes(case.files, [os.fsdecode(hex_bytes(words[1:])), words[0]])
            return True
        self.open = None
        if key == "words":
            case.words = (case.words or []) + [word.encode() for word in words]
        elif key == "word":
            case.words = (case.words or []) + [rest.encode()]
        elif key == "rawword":
            case.words = (case.words or []) + [hex_bytes(words)]
        elif key == "times" and len(words) == 2:
            case.words = (case.words or []) + [words[1].encode()] * number(words[0])
        elif key == "row" and 0 < len(words) < 10:
            case.rows.append(words)
        elif key == "status" and len(words) == 1:
            case.status = number(words[0])
        elif key == "output":
            case.output += rest.encode() + b"\n"
        elif key == "errors":
            case.errors += rest.encode() + b"\n"
        elif key == "closed" and rest in DESCRIPTORS:
            case.prepare.append(f"exec {DESCRIPTORS[rest]}>&-")
        elif key == "full" and rest in ("output", "errors"):
            case.prepare.append(f"exec {DESCRIPTORS[rest]}>/dev/full")
        elif key == "to" and len(words) == 2 and words[0] in ("output", "errors"):
            case.prepare.append(f"exec {DESCRIPTORS[words[0]]}>{shlex.quote(words[1])}")
        elif key == "outputs" and rest in self.bytes:
            case.output += self.bytes[rest]
        elif key == "memory" and len(words) == 1:
            case.prepare.append(f"ulimit -v {number(words[0])}")
        else:
            return False
        return True

    def begin_bytes(self, table, words):
        """Begins the bytes of a name: none, or those that another name has."""
        name, base = words[0], words[1] if len(words) == 2 else None
        if name in table:
            raise Malformed(f"`{name}` is there already")
        if base is not None and base not in self.bytes:
            raise Malformed(f"no bytes are named `{base}`")
        table[name] = b"" if base is None else self.bytes[base]
        self.open = table, name

    def opened(self):
        if self.open is None or isinstance(self.open[0][self.open[1]], Extended):
            raise Malformed("there are no bytes that this line can belong to")
        return self.open

    def append(self, more):
        table, name = self.opened()
        table[name] += more

    def at(self, place, *new):
        """Changes the bytes at a place, up to the end and past it."""
        table, name = self.opened()
        place, new, old = number(place), hex_bytes(new), table[name]
        if place > len(old):
            raise Malformed(f"{place} is past the end")
        table[name] = old[:place] + new + old[place + len(new) :]

    def cut(self, first, last=None):
        """Cuts the bytes at one length, or a case's file at each length of a range."""
        table, name = self.opened()
        first, last = number(first), None if last is None else number(last)
        if last is None and first <= len(table[name]):
            table[name] = table[name][:first]
        elif last is not None and first <= last <= len(table[name]) and self.case is not None and table is self.case.files:
            self.case.cut = name, first, last
        else:
            raise Malformed("nothing can be cut there")

    def zeros(self, length):
        """Adds zeros up to a length."""
        table, name = self.opened()
        if number(length) < len(table[name]):
            raise Malformed("there are more bytes already")
        table[name] = Extended(table[name], number(length))


def put(path, contents):
    os.makedirs(os.path.dirname(path), exist_ok=True)
    with open(path, "wb") as file:
        if isinstance(contents, Extended):
            file.write(contents.bytes)
            file.truncate(contents.length)
        else:
            file.write(contents)


def is_as_wanted(path, wanted):
    if wanted is None or not os.path.isfile(path):
        return wanted is None and not os.path.lexists(path)
    with open(path, "rb") as file:
        if not isinstance(wanted, Extended):
            return file.read() == wanted
        return os.path.getsize(path) == wanted.length and wanted.is_in(file)


def shown_text(text):
    return [f"    | {line}" for line in text.decode(errors="backslashreplace").splitlines()] or ["    nothing"]


def shown_file(path):
    """The first bytes of a file."""
    if not os.path.isfile(path):
        return ["    no file"]
    with open(path, "rb") as file:
        return shown_contents(file.read(1 << 10))


def shown_contents(contents):
    if contents is None:
        return ["    no file"]
    if isinstance(contents, Extended):
        return [*shown_contents(contents.bytes), f"    and zeros up to {contents.length} bytes"]
    return [f"    | {contents[at : at + 16].hex(' ')}" for at in range(0, len(contents), 16)] or ["    an empty file"]


def files_below(room):
    """The files of a run's folder and of those below it, each by its path from there."""
    return [os.path.relpath(os.path.join(folder, name), room) for folder, _, names in os.walk(room) for name in names]


def different_files(room, case):
    """Shows each file that is not as it has to be: as before, where no line `leaves` says something else."""
    wanted = {**case.files, **case.leaves}
    for name in sorted({*files_below(room), *wanted}):
        path = os.path.join(room, name)
        if not is_as_wanted(path, wanted.get(name)):
            yield from [f"  file {name}: wanted", *shown_contents(wanted.get(name)), "  came", *shown_file(path)]


def differences(tool, case):
    """Runs a case, and shows what differs from what is wanted."""
    words = [os.fsencode(tool), *case.words]
    if case.prepare:
        words = ["/bin/sh", "-c", "; ".join([*case.prepare, 'exec "$@"']), "sh", *words]
    with tempfile.TemporaryDirectory(prefix="case-") as room:
        for name, contents in case.files.items():
            put(os.path.join(room, name), contents)
        try:
            ran = subprocess.run(words, cwd=room, env={}, stdin=subprocess.DEVNULL, stdout=subprocess.PIPE, stderr=subprocess.PIPE, timeout=SECONDS)
        except subprocess.TimeoutExpired:
            return [f"  the run had not ended after {SECONDS} seconds"]
        found = []
        if ran.returncode != case.status:
            found += [f"  status: wanted {case.status}, came {ran.returncode}"]
        for stream, wanted, came in (("output", case.output, ran.stdout), ("errors", case.errors, ran.stderr)):
            if wanted != came:
                found += [f"  {stream}: wanted", *shown_text(wanted), "  came", *shown_text(came)]
        return [*found, *different_files(room, case)]


def all_paths():
    """The files of cases, in order."""
    return sorted(os.path.join(FOLDER, name) for name in os.listdir(FOLDER) if name.endswith(".cases"))


def path_of(topic):
    path = topic if topic.endswith(".cases") else os.path.join(FOLDER, f"{topic}.cases")
    if not os.path.isfile(path):
        topics = ", ".join(os.path.basename(it)[: -len(".cases")] for it in all_paths())
        common.fail(__name__, f"there is no {path}; there are {topics}")
    return path


def run_file(tool, path):
    """Runs the cases of a file. Returns how many runs passed and how many failed."""
    reader, passed, failed = Reader(path), 0, 0
    for _, fault in reader.faults:
        failed += 1
        print(f"FAILED {fault}")
    runs = [run for case in reader.cases for run in case.runs()]
    with concurrent.futures.ThreadPoolExecutor(os.cpu_count()) as pool:
        each_found = pool.map(lambda run: differences(tool, run), runs)
    for run, found in zip(runs, each_found):
        passed, failed = passed + (not found), failed + bool(found)
        if found:
            words = b" ".join(run.words).decode(errors="backslashreplace")
            print(f"FAILED {run.place}: {run.name}", f"  sf_tool {words[:300]}", *found, sep="\n")
    print(f"{os.path.basename(path)}: {passed} passed, {failed} failed", flush=True)
    return passed, failed


def main(words):
    parser = common.parser(__name__, __doc__)
    program.add_option(parser)
    parser.add_argument("topics", nargs="*", metavar="TOPIC")
    given = parser.parse_args(words)
    tool = program.find(__name__, given.tool, has_to_be_new=True)
    paths = [path_of(it) for it in given.topics] or all_paths()
    counts = [run_file(tool, path) for path in paths]
    passed, failed = sum(count[0] for count in counts), sum(count[1] for count in counts)
    print(f"{passed} passed, {failed} failed")
    return 1 if failed or not passed else 0
