"""Records which commit the program and the libraries were built from, and reads it. `./x build` writes it, `./x release` needs it."""

import os

from kiblawen import common, program, staging

RECORD = common.at_top("crates", "sf_tool", "out", "commit")
# What is built, and the sources that it is built from.
FILES = (program.BUILT, program.LIBRARY, program.LINK_LIBRARY)
SOURCES = ("crates", "crates.txt")


def clean_commit():
    """The commit whose sources these are, or None if they differ from it or this is no clone."""
    commit = common.output("git", "-C", common.TOP, "rev-parse", "HEAD")
    changed = common.output("git", "-C", common.TOP, "status", "--porcelain", "--", *SOURCES)
    return commit.strip() if commit and changed == "" else None


def recorded():
    """The commit of each file that is as a build has left it."""
    try:
        with open(RECORD, encoding="ascii") as file:
            lines = file.read().splitlines()
    except (OSError, ValueError):
        return {}
    return {path: line.split()[0] for path in FILES for line in lines if os.path.exists(path) and line.split()[1:] == sum_of(path).split()}


def sum_of(path):
    return f"{staging.digest(path)} {os.path.basename(path)}"


def write(before, paths):
    """Records that these files were built from the commit that was clean when the build began, if it still is."""
    found = {path: commit for path, commit in recorded().items() if path not in paths}
    if before and before == clean_commit():
        found.update(dict.fromkeys(paths, before))
    staging.write(RECORD, "".join(f"{commit} {sum_of(path)}\n" for path, commit in found.items()))


def commit():
    """The commit that the program was built from, or None if that isn't known, or a library was built from other sources."""
    found = recorded()
    commits = [found.get(path) for path in FILES]
    return commits[0] if all(commits) and all(has_same_sources(it, commits[0]) for it in commits) else None


def has_same_sources(found, other="HEAD"):
    """Whether the sources of a commit are those of another one."""
    return common.output("git", "-C", common.TOP, "diff", "--quiet", found, other, "--", *SOURCES) is not None
