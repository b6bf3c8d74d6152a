"""The folders from which `./x release` makes its files: what is put into them, and how they are written."""

import gzip
import hashlib
import os
import tarfile

from kiblawen import common


def installed(by, root, prefix, libdir, named=None):
    """Puts the program, both libraries and the documents below a root, as ./x install does."""
    to = by(prefix, libdir, root, named)
    to.put_all(common.version())
    to.put_link_library(common.version())


def write(path, text):
    os.makedirs(os.path.dirname(path), exist_ok=True)
    with open(path, "w", encoding="utf-8") as file:
        file.write(text)
    os.chmod(path, 0o644)


def write_packed(path, content, date=0):
    """Writes a compressed file in which no name is, and no time but this one."""
    os.makedirs(os.path.dirname(path), exist_ok=True)
    with open(path, "wb") as file, gzip.GzipFile("", "wb", 9, file, date) as packed:
        packed.write(content)
    os.chmod(path, 0o644)


def settle(root, date):
    """Gives the folders below a root their mode, and all files and folders this time."""
    for folder, _, names in os.walk(root, topdown=False):
        for name in names:
            os.utime(os.path.join(folder, name), (date, date), follow_symlinks=False)
        os.chmod(folder, 0o755)
        os.utime(folder, (date, date))


def names_below(root):
    """The names of the files below a folder, counted from it, in order."""
    return sorted(os.path.relpath(os.path.join(folder, name), root) for folder, _, names in os.walk(root) for name in names)


def digest(path, by=hashlib.sha256):
    with open(path, "rb") as file:
        return by(file.read()).hexdigest()


def of_root(entry):
    entry.uid = entry.gid = 0
    entry.uname = entry.gname = "root"
    return entry


def write_tar(path, root, top, date):
    """Writes the files below a root as a compressed tar file, in which they are below `top`."""
    with open(path, "wb") as file, gzip.GzipFile("", "wb", 9, file, date) as packed:
        with tarfile.open(fileobj=packed, mode="w", format=tarfile.USTAR_FORMAT) as tar:
            for name in names_below(root):
                tar.add(os.path.join(root, name), os.path.join(top, name), filter=of_root)
