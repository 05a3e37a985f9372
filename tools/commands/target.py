"""Where a picture goes. Nothing that stood there is lost by a draw that fails, and only a regular file is ever replaced:

- a device, a pipe, a descriptor (-, /dev/stdout, /dev/fd/N) is written through;
- a link stays, and what it leads to gets the picture, whether it was there or not;
- a file is replaced at once by a whole one of the same owner and mode. Where that can't be (its folder is closed to us, it has more names,
  or rights beyond its mode), it is written in place, once there is room for all, and put back if that fails;
- a folder is refused."""

import errno
import os
import re
import secrets
import stat

from talk import Failed, put, shown

# With these a file can't be put in the place of another, though that one may be written.
NOT_REPLACED = (errno.EACCES, errno.EPERM, errno.EROFS, errno.EBUSY, errno.EXDEV)
DESCRIPTOR = re.compile(r"/dev/stdout|/dev/stderr|/(?:dev|proc/self)/fd/(\d+)")


class Target:
    """Looks at the name, and opens what is written through; `write` does the rest."""

    def __init__(self, name, closed):
        self.name, self.old, self.through = name, None, descriptor(name)
        if self.through is not None:
            self.needs(self.through not in closed and open_one(self.through), "it is closed")
            return
        try:
            self.old = os.stat(name)
        except FileNotFoundError:
            pass
        except OSError as why:
            raise self.failed(why)
        self.path = os.path.realpath(name)
        if self.old and stat.S_ISDIR(self.old.st_mode) or name.endswith("/"):
            raise Failed(2, f"{shown(name)} is a folder, and no picture's name")
        if self.old and not stat.S_ISREG(self.old.st_mode):
            try:
                # no terminal of ours by that; a pipe waits here for its reader
                self.through = os.open(name, os.O_WRONLY | os.O_NOCTTY | os.O_CLOEXEC)
            except OSError as why:
                raise self.failed(why)
            return
        folder = os.path.dirname(self.path)
        self.needs(name and os.path.isdir(folder), f"there is no folder {folder}" if name else "it is no name")
        if self.old:
            self.needs(os.access(self.path, os.W_OK), os.strerror(errno.EACCES))
        else:
            self.needs(os.access(folder, os.W_OK | os.X_OK), f"no file can be made in {folder}")

    def needs(self, holds, text):
        if not holds:
            raise Failed(1, f"{shown(self.name)} can't be written: {text}")

    def failed(self, why):
        return Failed(1, f"{shown(self.name)} can't be written: {why.strerror}")

    def is_file(self, fd):
        """Whether it is the regular file that is open there."""
        other = os.fstat(fd)
        return bool(self.old and stat.S_ISREG(other.st_mode) and os.path.samestat(self.old, other))

    def write(self, data):
        try:
            if self.through is not None:
                put(self.through, data)
            elif self.old and (self.old.st_nlink > 1 or more_rights(self.path)):
                self.in_place(data)
            else:
                self.replace(data)
        except OSError as why:
            raise self.failed(why)

    def replace(self, data):
        try:
            self.rename(data)
        except OSError as why:
            if not self.old or why.errno not in NOT_REPLACED:
                raise
            self.in_place(data)

    def rename(self, data):
        """Makes a file beside it, then lets that take its name. A new one has the mode that a plain write would give it."""
        part = os.path.join(os.path.dirname(self.path), f".draw-{secrets.token_hex(8)}")
        fd = os.open(part, os.O_WRONLY | os.O_CREAT | os.O_EXCL | os.O_CLOEXEC, 0o600 if self.old else 0o666)
        try:
            try:
                put(fd, data)
                if self.old:
                    made = os.fstat(fd)
                    if (made.st_uid, made.st_gid) != (self.old.st_uid, self.old.st_gid):
                        os.fchown(fd, self.old.st_uid, self.old.st_gid)
                    os.fchmod(fd, stat.S_IMODE(self.old.st_mode))
            finally:
                os.close(fd)
            os.rename(part, self.path)
        except BaseException:
            os.unlink(part)
            raise

    def in_place(self, data):
        try:
            fd = os.open(self.path, os.O_RDWR | os.O_CLOEXEC)
            before = os.pread(fd, len(data), 0)
        except PermissionError:
            # it may be written and not read
            fd, before = os.open(self.path, os.O_WRONLY | os.O_CLOEXEC), b""
        try:
            os.posix_fallocate(fd, 0, len(data))
            put(fd, data)
            os.ftruncate(fd, len(data))
        except BaseException:
            # as far as it goes: what was written over, and the size
            done = os.lseek(fd, 0, os.SEEK_CUR)
            os.pwrite(fd, before[:done], 0)
            os.ftruncate(fd, self.old.st_size)
            raise
        finally:
            os.close(fd)


def descriptor(name):
    """The open descriptor that a name stands for, or None."""
    found = DESCRIPTOR.fullmatch(name)
    if name == "-" or name == "/dev/stdout":
        return 1
    return None if not found else 2 if name == "/dev/stderr" else int(found[1])


def more_rights(path):
    """Whether a file has a list of rights, or notes of a user's, that another one in its place would lack."""
    try:
        return any(name.startswith(("user.", "system.posix_acl")) for name in os.listxattr(path))
    except OSError:
        return False  # the file system has none


def open_one(fd):
    try:
        os.fstat(fd)
        return True
    except OSError:
        return False
