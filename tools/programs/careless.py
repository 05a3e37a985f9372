#!/usr/bin/env python3
"""careless.py FAULT COMMAND ARGUMENTS..: stands in for a command of bin/ that has a fault, and is the true COMMAND in all else. The tests
must fail on each: see CARELESS in main.py."""

import os
import re
import stat
import subprocess
import sys
import tempfile

fault, command, words = sys.argv[1], sys.argv[2], sys.argv[3:]
name = os.path.basename(command)
# what draw or page is asked to write, and its plain form
picture = words[-1] if len(words) > 1 else ""
ending = os.path.splitext(picture)[1]
plain = ".pgm" if name == "page" else ".ppm"


def run(*words):
    return subprocess.run([command, *words], stdout=subprocess.PIPE, stderr=subprocess.PIPE)


def before():
    """The fault that is done first."""
    if fault == "truncates" and os.path.isfile(picture):
        os.truncate(picture, 0)
    if fault == "no-dash" and "-" in words:
        words[words.index("-")] = "./-"
    if fault == "no-dashes" and "--" in words:
        words.remove("--")


def drawn():
    """The true command's draw, or one that gets to its place by a fault."""
    if fault == "replaces" and os.path.lexists(picture) and not os.path.isdir(picture):
        return moved(".png" if ending == ".png" else plain, picture)
    if fault == "fills-folders" and os.path.isdir(picture):
        return moved(plain, os.path.join(picture, "drawn"))
    if fault == "any-ending" and ending.lower() not in ("", ".png", plain):
        return moved(plain, picture)
    if fault == "small-png" and ending.lower() == ".png" != ending:
        return moved(plain, picture)
    if fault == "blank-png" and "--png" in words:
        with tempfile.NamedTemporaryFile() as zeros:
            zeros.write(bytes(4096))
            zeros.flush()
            return run("--png", zeros.name, picture)
    return run(*words)


def moved(ending, place):
    with tempfile.TemporaryDirectory(dir=".") as folder:
        made = os.path.join(folder, "made" + ending)
        ended = run(*words[:-1], made)
        if os.path.exists(made):
            os.rename(made, place)
        return ended


def after(out, said, status):
    """The fault in what is told."""
    if fault == "mode-lost" and os.path.isfile(picture):
        os.chmod(picture, 0o644)
    if fault == "part-left":
        open(".draw-part", "wb").close()
    if fault == "silent":
        said = b""
    if fault == "column":
        said = re.sub(rb"column (\d+)", lambda m: b"column %d" % (int(m[1]) - 1), said)
    if fault == "one-way" and not stat.S_ISREG(os.fstat(0).st_mode):
        said = re.sub(rb" is refused: .*", b" is refused", said)
    if fault == "more-lost":
        said = re.sub(rb".* more lines? .*\n", b"", said)
    if fault == "two-words" and said:
        said += b"plate: it has failed\n"
    if fault == "lengths-lost":
        said = re.sub(rb", 10: .*", b"", said)
    if fault == "words-lost":
        out = re.sub(rb"( at \d+): .*", rb"\1", out)
    if fault == "hex-lost":
        out = re.sub(rb" \(hex [0-9A-F]+\)", b"", out)
    if fault == "sorted":
        out = b"".join(sorted(out.splitlines(keepends=True)))
    if fault == "ends-there":
        out = re.sub(rb"(: no such file\n).*", rb"\1", out, flags=re.S)
    if fault == "plain-names":
        out = out.decode("ascii", "replace").encode()
    if fault == "chatty" and words[-1:] == ["-"] and status == 0:
        out += f"{name}: -\n".encode()
    return out, said, 0 if fault == "no-status" else status


before()
ended = drawn()
out, said, status = after(ended.stdout, ended.stderr, ended.returncode)
for fd, text in ((2, said), (1, out)):
    try:
        while text:
            text = text[os.write(fd, text) :]
    except OSError:
        status = status or 1
os._exit(status)
