"""Files that have to have just so many bytes: a saved block, a page, a plate. No more of one is read than tells that it is longer."""

import os
import stat


def taken(fd, due):
    """What there is to read, up to one byte more than is due, and how many bytes there are: None where that was not looked for."""
    about = os.fstat(fd)
    regular = stat.S_ISREG(about.st_mode)
    began = os.lseek(fd, 0, os.SEEK_CUR) if regular else 0
    data = b""
    for part in iter(lambda: os.read(fd, due + 1 - len(data)), b""):
        data += part
    if len(data) <= due:
        return data, len(data)
    whole = about.st_size - began
    return data, whole if regular and whole > due else None


def length(size, due, what):
    """The words for another length than is due; size: as `taken` gives it."""
    if size is None:
        return f"it has more than the {due:,} bytes of a {what}"
    if size == 0:
        return f"it is empty; a {what} has {due:,} bytes"
    return f"it has {size:,} byte{'s' * (size != 1)}; a {what} has {due:,}"
