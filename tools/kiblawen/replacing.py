"""Opens files below folders that may belong to others, and puts new versions in their place, by descriptors.

The owner of a folder may exchange files and folders for links at any time. So no link is followed here but in the words of the command
line: a file is the one that was found, by device and inode, or it isn't opened, and its owner and mode go to the file that was made.
"""

import collections
import contextlib
import errno
import os
import secrets
import shutil
import stat

# How a file's name begins that is made beside it, before it gets that name.
ROOM = ".kiblawen-add-"
FOLDER = os.O_RDONLY | os.O_DIRECTORY | os.O_NOFOLLOW
# A named pipe is not waited for.
FILE = os.O_RDONLY | os.O_NOFOLLOW | os.O_NONBLOCK
NEW = os.O_WRONLY | os.O_CREAT | os.O_EXCL | os.O_NOFOLLOW
# Attributes that sign a file's contents, and so are wrong for a changed file.
SIGNATURES = ("security.ima", "security.evm")

# A file that was found: its names, and its device and inode.
Found = collections.namedtuple("Found", "names identity")


class Changed(Exception):
    """A file is no longer the one that was found."""


def identity(status):
    return status.st_dev, status.st_ino


@contextlib.contextmanager
def folder_of(path):
    """Opens the folder of a file."""
    descriptor = os.open(os.path.dirname(path) or ".", FOLDER)
    try:
        yield descriptor
    finally:
        os.close(descriptor)


def open_in(folder, name):
    """Opens a regular file of a folder, or returns none if the folder has no such file."""
    try:
        file = os.fdopen(os.open(name, FILE, dir_fd=folder), "rb")
    except OSError as fault:
        if fault.errno in (errno.ENOENT, errno.ELOOP, errno.ENXIO):
            return None
        raise
    if stat.S_ISREG(os.fstat(file.fileno()).st_mode):
        return file
    file.close()
    return None


@contextlib.contextmanager
def opened(found):
    """Opens a file that was found, if it is still there."""
    with folder_of(found.names[0]) as folder:
        file = open_in(folder, os.path.basename(found.names[0]))
        if not file:
            raise Changed
        with file:
            original = Original(file, found, folder)
            if identity(original.before) != found.identity:
                raise Changed
            yield original


class Original:
    """An open file, how it was when it was opened, and the folder of its first name."""

    def __init__(self, file, found, folder):
        self.file, self.found, self.folder, self.before = file, found, folder, os.fstat(file.fileno())

    def copy(self, path):
        """Writes its bytes to a file, whose name each command can take."""
        self.file.seek(0)
        with open(path, "wb") as to:
            shutil.copyfileobj(self.file, to)

    def check(self, folder, name):
        """Checks that a name in a folder is still this file, unchanged."""
        now, before = os.stat(name, dir_fd=folder, follow_symlinks=False), self.before
        if (identity(now), now.st_size, now.st_mtime_ns) != (identity(before), before.st_size, before.st_mtime_ns):
            raise Changed

    def replace(self, new):
        """Puts a copy of another file in its place, under all its names."""
        first, *others = self.found.names
        with fresh(self.folder) as (to, file):
            copy_content(new, file)
            copy_attributes(self.file.fileno(), file.fileno())
            os.fsync(file.fileno())
            self.check(self.folder, os.path.basename(first))
            os.rename(to, os.path.basename(first), src_dir_fd=self.folder, dst_dir_fd=self.folder)
        for path in others:
            with folder_of(path) as folder:
                self.link(folder, os.path.basename(path))

    def link(self, folder, name):
        """Makes a name of the file that was replaced one of the new file."""
        self.check(folder, name)
        to = fresh_name()
        os.link(os.path.basename(self.found.names[0]), to, src_dir_fd=self.folder, dst_dir_fd=folder, follow_symlinks=False)
        os.rename(to, name, src_dir_fd=folder, dst_dir_fd=folder)


def fresh_name():
    return f"{ROOM}{secrets.token_hex(8)}"


@contextlib.contextmanager
def fresh(folder):
    """Makes a new file in a folder. It is removed, unless it has another name by then."""
    name = fresh_name()
    try:
        with os.fdopen(os.open(name, NEW, 0o600, dir_fd=folder), "wb") as file:
            yield name, file
    finally:
        with contextlib.suppress(FileNotFoundError):
            os.unlink(name, dir_fd=folder)


def put(new, path, mode):
    """Puts a copy of a file under a name, with this mode, at once."""
    with folder_of(path) as folder, fresh(folder) as (to, file):
        copy_content(new, file)
        os.fchmod(file.fileno(), mode)
        os.rename(to, os.path.basename(path), src_dir_fd=folder, dst_dir_fd=folder)


def copy_content(path, file):
    with open(path, "rb") as content:
        shutil.copyfileobj(content, file)
    file.flush()


def copy_attributes(old, new):
    """Gives an open file the owner, the mode and the extended attributes of another one."""
    here, there = os.fstat(old), os.fstat(new)
    if (here.st_uid, here.st_gid) != (there.st_uid, there.st_gid):
        os.fchown(new, here.st_uid, here.st_gid)
    for name in attributes(old):
        if name not in SIGNATURES:
            os.setxattr(new, name, os.getxattr(old, name))
    os.fchmod(new, stat.S_IMODE(here.st_mode))


def attributes(descriptor):
    """Returns the names of an open file's extended attributes; the list is empty if the file system has none."""
    try:
        return os.listxattr(descriptor)
    except OSError as fault:
        if fault.errno != errno.ENOTSUP:
            raise
        return []
