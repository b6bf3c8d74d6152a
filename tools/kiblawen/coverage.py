"""Links every ELF file below folders, and shows what is kept, what is omitted and why, and how many bytes of code have a row.

    ./x coverage DIR ..                      with the program that was built
    ./x coverage --tool PROGRAM DIR ..       with another one

The files are linked in parallel, each by its own process. They and their folders are not changed. The last lines are a table and a bar. Files
that the program refuses are listed with its line, and files from which it keeps nothing (`kept 0`, with status 0) are counted as empty. Code is
what sections with SHF_EXECINSTR hold.
"""

import collections
import concurrent.futures
import os
import tempfile

from kiblawen import common, elf, program


def code_bytes(path):
    """How many bytes the sections of a file hold that are code."""
    with open(path, "rb") as file:
        return sum(it.size for it in elf.sections(file) if it.flags & elf.SHF_EXECINSTR and it.kind != elf.SHT_NOBITS)


def look(job):
    tool, path = job
    with tempfile.TemporaryDirectory(prefix="coverage-") as room:
        section = os.path.join(room, "sframe")
        at, said = program.linked(tool, path, section)
        if at is None:
            return path, said, None
        omitted, kept = program.report(said)
        answered = sum(size for size, rows in program.functions(tool, section, at).values() if rows)
    return path, None, (kept, collections.Counter(it.reason for it in omitted.values()), answered, code_bytes(path))


def main(words):
    parser = common.parser(__name__, __doc__)
    program.add_option(parser)
    parser.add_argument("folders", nargs="+", metavar="DIR")
    given = parser.parse_args(words)
    tool, paths = program.find(__name__, given.tool), elf.files_below(given.folders)
    kept, answered, code, refused, whole, empty = 0, 0, 0, [], 0, 0
    reasons, files = collections.Counter(), collections.Counter()
    with concurrent.futures.ThreadPoolExecutor(os.cpu_count()) as workers:
        for path, refusal, found in workers.map(look, ((tool, path) for path in paths)):
            if refusal:
                refused.append(f"{path}: {refusal}")
                continue
            kept += found[0]
            reasons.update(found[1])
            files.update(set(found[1]))
            empty += not found[0]
            whole += found[0] > 0 and not found[1]
            answered += found[2]
            code += found[3]
    omitted = sum(reasons.values())
    print(f"{len(paths)} files, {len(refused)} refused, {empty} empty, {whole} without an omission")
    for line in refused:
        print(f"   {line}")
    if kept + omitted:
        share = kept / (kept + omitted)
        print(f"{kept + omitted} functions, {kept} kept, {omitted} omitted")
        print(f"   [{'#' * int(share * 50):.<50}] {100 * share:.2f} % of the functions")
    if code:
        share = answered / code
        print(f"   [{'#' * min(50, int(share * 50)):.<50}] {100 * share:.2f} % of {code} bytes of code have a row")
    if reasons:
        print(f"{'reason':16}{'functions':>12}{'files':>10}")
    for reason, count in reasons.most_common():
        print(f"{reason:16}{count:>12}{files[reason]:>10}")
    return 0 if paths else 1
