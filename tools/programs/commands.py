"""Suites on the commands in bin/: the picture that draw leaves and what it leaves alone, which page does alike; the causes of refused lines; and
a first build, which a stand-in for rt does here."""

import contextlib
import functools
import os
import shutil
import stat
import sys
import tempfile
import threading
from concurrent.futures import ThreadPoolExecutor

import answers
import logs
from failures import one_message

HERE = os.path.dirname(os.path.abspath(__file__))
ROOT = os.path.dirname(os.path.dirname(HERE))
sys.path.insert(0, os.path.join(ROOT, "tools", "commands"))

import reasons as causes
from pictures import of_plate

NOBODY = 65534


def read(path):
    with open(path, "rb") as file:
        return file.read()


def sample(kind):
    return read(os.path.join(ROOT, "samples", f"dusk.{kind}"))


def write(path, data=b"kept", mode=None):
    with open(path, "wb") as file:
        file.write(data)
    if mode is not None:
        os.chmod(path, mode)


def mode_of(path):
    return stat.S_IMODE(os.stat(path).st_mode)


def new_mode():
    """The mode of a file that is simply made."""
    mask = os.umask(0)
    os.umask(mask)
    return 0o666 & ~mask


class Desk:
    """A folder to draw in by a command that makes a picture of a file: the sample, a file that is refused, and the pictures that are due. This
    is draw's; page has its own, with other words in these places."""

    command, program, what = "draw", "plate", "log"
    # its plain form of picture, and one that it has not
    plain, other = "ppm", "pgm"
    # what is refused, and what is said of it in a file and from standard input; and of a program that prints something else
    refused = b"01\n01 \n01\n"
    cause, cause_typed = b"line 2 of bad.log is refused: it has a blank at column 3", b"line 2 of standard input is refused"
    unlike = b"what plate prints is no plate"

    def __init__(self, t, p, folder):
        self.t, self.p, self.folder = t, p, folder
        self.good, self.bad = f"good.{self.what}", f"bad.{self.what}"
        self.given = sample(self.what)
        write(self.at(self.good), self.given)
        write(self.at(self.bad), self.refused)
        self.printed, self.flat, self.png = self.due()

    @staticmethod
    @functools.lru_cache(maxsize=None)
    def due():
        """Of the sample: what the program prints, the plain picture, and the PNG."""
        plate = sample("plate")
        return plate, of_plate(plate, "ppm"), of_plate(plate, "png")

    def at(self, *names):
        return os.path.join(self.folder, *names)

    def flatly(self, name):
        """The name of a plain picture."""
        return f"{name}.{self.plain}"

    def draw(self, *words, **how):
        return self.p.bin(self.command, *words, cwd=self.folder, **how)

    def instead(self, words):
        """The environment in which these words stand in for the program."""
        return {"env": {self.program.upper(): words}}

    def said_once(self, ended, status, *parts):
        return one_message(self.command, ended, status, *parts)

    def check(self, name, holds, show=lambda: ""):
        self.t.check(f"bin/{self.command}: {name}", holds, show)


@contextlib.contextmanager
def reader(path):
    """Reads a named pipe to its end, at another's side: gives a list that has the bytes afterwards."""
    got = []

    def take():
        with contextlib.suppress(OSError):  # where a fault has taken the pipe away
            got.append(read(path))

    thread = threading.Thread(target=take, daemon=True)
    thread.start()
    yield got
    thread.join(20)


def side_by_side(parts, *given):
    """Runs the parts of a suite, so many at a time as there are processors."""
    with ThreadPoolExecutor(os.cpu_count()) as pool:
        list(pool.map(lambda part: part(*given), parts))


def drawing(t, p, few=False, parts=None):
    """What draw writes, to what, and what it leaves as it was. parts: these functions alone."""
    at_desk(Desk, t, p, (devices, pipes, links, older, failing, folders, endings, descriptors, rights, names), parts)


def at_desk(kind, t, p, every, parts):
    with tempfile.TemporaryDirectory() as folder:
        desk = kind(t, p, folder)
        side_by_side([part for part in every if parts is None or part.__name__ in parts], desk)
        # whatever was drawn or refused, no file of its own is left
        left = [name for name in os.listdir(folder) if name.startswith(".")]
        desk.check("no file is left beside the pictures", not left, lambda: str(left))


def endings(d):
    write(d.at("e.jpg"))
    for words in (
        (d.good, "e.jpg"),
        (d.good, "new.gif"),
        (d.good, f"new.{d.other}"),
        (f"--{d.other}", d.good, "new"),
        (d.good, d.good),
        ("--png", d.good, d.flatly("a")),
        ("--png", f"--{d.plain}", d.good, "a"),
    ):
        ended = d.draw(*words)
        d.check(f"bad usage: {' '.join(words)}", d.said_once(ended, 2), ended.show)
    kept = read(d.at("e.jpg")) == b"kept" and not any(name.startswith("new") for name in os.listdir(d.folder)) and read(d.at(d.good)) == d.given
    d.check("bad usage: nothing is written", kept)
    dues = {"b.PNG": d.png, "a.png": d.png, d.flatly("c"): d.flat, f"d.{d.plain.title()}": d.flat, "plain": d.flat, ".png": d.png}
    for name, due in dues.items():
        ended = d.draw(d.good, name)
        whole = os.path.exists(d.at(name)) and read(d.at(name)) == due and mode_of(d.at(name)) == new_mode()
        told = ended.out == f"{d.command}: {name}\n".encode() and not ended.said
        d.check(f"the ending of {name}", ended.status == 0 and whole and told, ended.show)
        if os.path.exists(d.at(name)):
            os.unlink(d.at(name))
    ended = d.draw("--png", d.good, "plain")
    d.check("--png for a name without an ending", ended.status == 0 and read(d.at("plain")) == d.png, ended.show)


def descriptors(d):
    for words in ("- -", "--png - -", "- /dev/stdout", f"--{d.plain} -- - -"):
        ended, due = d.draw(*words.split(), stdin=d.given), d.png if "--png" in words else d.flat
        d.check(f"standard input to standard output: {words}", ended.status == 0 and ended.out == due and not ended.said, ended.show)
    ended = d.draw("-", "-", stdin=d.refused)
    d.check("standard input that is refused", d.said_once(ended, 1, d.cause_typed), ended.show)
    ended = d.draw("-", d.flatly("closed"), stdin=None)
    d.check("standard input is closed", d.said_once(ended, 1, b"closed"), ended.show)
    ended = d.draw(d.good, "-", stdout="closed")
    d.check("standard output is closed", d.said_once(ended, 1, b"closed"), ended.show)
    with open("/dev/full", "wb") as full:
        ended = d.draw(d.good, "-", stdout=full)
        d.check("standard output is full", d.said_once(ended, 1, b"No space left"), ended.show)


def pipes(d):
    for name, given, due in (("pipe", d.good, d.flat), ("pipe.png", d.good, d.png), ("pipe.x", d.bad, b"")):
        os.mkfifo(d.at(name))
        with reader(d.at(name)) as got:
            ended = d.draw(given, name)
            if not stat.S_ISFIFO(os.lstat(d.at(name)).st_mode):
                # the reader waits at the pipe that was
                got.append(None)
                return d.check(f"a pipe stays a pipe: {name}", False, ended.show)
        d.check(f"a pipe: {name}, {given}", ended.status == (0 if due else 1) and got == [due], ended.show)


def links(d):
    real, link = d.flatly("real"), d.flatly("link")
    write(d.at(real), mode=0o640)
    os.symlink(real, d.at(link))
    os.symlink(link, d.at("chain"))
    for name in (link, "chain"):
        write(d.at(real))
        ended = d.draw(d.bad, name)
        d.check(f"a link, {name}: a failed draw", ended.status == 1 and read(d.at(real)) == b"kept" and os.path.islink(d.at(name)), ended.show)
        ended = d.draw(d.good, name)
        stays = os.path.islink(d.at(link)) and os.path.islink(d.at("chain")) and os.readlink(d.at(link)) == real
        d.check(f"a link, {name}", ended.status == 0 and stays and read(d.at(real)) == d.flat and mode_of(d.at(real)) == 0o640, ended.show)
    os.mkdir(d.at("sub"))
    os.symlink(os.path.join("sub", "made.png"), d.at("dangling.png"))
    ended = d.draw(d.bad, "dangling.png")
    d.check("a link to nothing: a failed draw", ended.status == 1 and not os.listdir(d.at("sub")), ended.show)
    ended = d.draw(d.good, "dangling.png")
    made = d.at("sub", "made.png")
    whole = os.path.islink(d.at("dangling.png")) and os.path.isfile(made) and read(made) == d.png and mode_of(made) == new_mode()
    d.check("a link to nothing", ended.status == 0 and whole, ended.show)
    os.symlink("round", d.at("round"))
    os.symlink(os.path.join("nowhere", d.flatly("a")), d.at(d.flatly("lost")))
    for name in ("round", d.flatly("lost")):
        ended = d.draw(d.good, name)
        d.check(f"a link that leads nowhere: {name}", d.said_once(ended, 1, b"can't be written") and os.path.islink(d.at(name)), ended.show)
    os.symlink(d.good, d.at("itself.png"))
    write(d.at("same.png"), d.given)
    for given, name in ((d.good, "itself.png"), ("same.png", "same.png")):
        ended = d.draw(given, name)
        said = d.said_once(ended, 2, f"{name} is the {d.what} itself".encode())
        d.check(f"{name}, which is the {d.what} itself", said and read(d.at(given)) == d.given, ended.show)


def folders(d):
    os.mkdir(d.at("room"))
    os.mkdir(d.at("room.png"))
    os.symlink("room", d.at(d.flatly("way")))
    for name in ("room", "room.png", d.flatly("way"), "room/", "none/"):
        ended = d.draw(d.good, name)
        kept = not os.listdir(d.at("room")) and not os.listdir(d.at("room.png")) and not os.path.exists(d.at("none"))
        d.check(f"a folder: {name}", d.said_once(ended, 2, b"folder") and kept, ended.show)
    ended = d.draw(d.good, d.flatly("none/a"))
    d.check("in no folder", d.said_once(ended, 1, b"there is no folder"), ended.show)
    ended = d.draw("room", d.flatly("a"))
    d.check(f"a folder as the {d.what}", d.said_once(ended, 2, b"is a folder") and not os.path.exists(d.at(d.flatly("a"))), ended.show)


def older(d):
    """A picture that was there keeps its mode, its owner and its other names, and is replaced whole or not at all."""
    for mode in (0o600, 0o664, 0o606):
        write(d.at("old.png"), mode=mode)
        ended = d.draw(d.good, "old.png")
        d.check(f"mode {mode:o} stays", ended.status == 0 and read(d.at("old.png")) == d.png and mode_of(d.at("old.png")) == mode, ended.show)
    if os.geteuid() == 0:
        os.chown(d.at("old.png"), NOBODY, NOBODY)
        ended = d.draw(d.good, "old.png")
        found = os.stat(d.at("old.png"))
        d.check("the owner stays", ended.status == 0 and (found.st_uid, found.st_gid, stat.S_IMODE(found.st_mode)) == (NOBODY, NOBODY, 0o606), ended.show)
    else:
        d.t.left_out("the owner of a picture: only root can give a file away")
    try:
        os.setxattr(d.at("old.png"), "user.note", b"dusk")
    except OSError as why:
        d.t.left_out(f"a picture with a user's note on it: {why.strerror}")
    else:
        ended = d.draw(d.good, "old.png")
        noted = "user.note" in os.listxattr(d.at("old.png"))
        d.check("a user's note on it stays", ended.status == 0 and noted and read(d.at("old.png")) == d.png, ended.show)
    one, two = d.flatly("one"), d.flatly("two")
    write(d.at(one), b"kept" * 100000, mode=0o600)
    os.link(d.at(one), d.at(two))
    for room in (0, 1000):
        ended = d.draw(d.good, one, settings=[f"room{room}"])
        d.check(f"two names, room for {room} bytes: stays", ended.status == 1 and read(d.at(two)) == b"kept" * 100000, ended.show)
    ended = d.draw(d.good, one)
    both = all(read(d.at(name)) == d.flat for name in (one, two))
    d.check("a picture with two names", ended.status == 0 and both and mode_of(d.at(two)) == 0o600, ended.show)


def devices(d):
    """Device nodes that are made for this: one that swallows all, and one that is full."""
    for name, minor, status in ((d.flatly("null"), 3, 0), (d.flatly("full"), 7, 1)):
        try:
            os.mknod(d.at(name), stat.S_IFCHR | 0o666, os.makedev(1, minor))
            os.close(os.open(d.at(name), os.O_WRONLY))
        except OSError as why:
            return d.t.left_out(f"a device as the picture: {why.strerror}")
        ended = d.draw(d.good, name)
        found = os.lstat(d.at(name))
        stays = stat.S_ISCHR(found.st_mode) and found.st_rdev == os.makedev(1, minor)
        well = ended.status == 0 and not ended.said if status == 0 else d.said_once(ended, 1, b"No space left")
        d.check(f"a device, {name}", well and stays, ended.show)


def rights(d):
    """Files and folders that their mode closes. Root is kept out by no mode, so it tries this as nobody, where nobody can run a command."""
    how = {"user": NOBODY, "group": NOBODY, "extra_groups": []} if os.geteuid() == 0 else {}
    write(d.at("printed"), d.printed)
    how.update(d.instead(f"cat {d.at('printed')}"))
    if os.geteuid() == 0:
        how["env"]["PATH"] = "/usr/bin:/bin"
        os.chmod(d.folder, 0o755)
    with contextlib.suppress(OSError):
        if d.draw("--version", **how).status == 0:
            return closed(d, how)
    d.t.left_out(f"files that are closed to us: nobody can't run bin/{d.command} here")


def closed(d, how):
    own = lambda name: os.path.join("own", name)
    os.makedirs(d.at("own", "shut"))
    for name, mode in (("read.png", 0o444), ("write.png", 0o200), ("shut/old.png", 0o644), ("secret", 0o000)):
        write(d.at(own(name)), mode=mode)
    os.chmod(d.at("own", "shut"), 0o555)
    for name in ("", "read.png", "write.png", "shut", "shut/old.png", "secret"):
        if os.geteuid() == 0:
            os.chown(d.at(own(name)), NOBODY, NOBODY)
    for name, status, due in (("read.png", 1, b"kept"), ("write.png", 0, d.png), ("shut/old.png", 0, d.png), ("shut/new.png", 1, None)):
        ended = d.draw(d.good, own(name), **how)
        if name == "write.png":
            os.chmod(d.at(own(name)), 0o600)
        found = read(d.at(own(name))) if os.path.exists(d.at(own(name))) else None
        well = not ended.said if status == 0 else d.said_once(ended, 1, b"can't be written")
        d.check(f"closed by its mode: {name}", ended.status == status and well and found == due, ended.show)
    ended = d.draw(own("secret"), own("new.png"), **how)
    d.check(f"a {d.what} that can't be read", d.said_once(ended, 2, b"Permission denied") and not os.path.exists(d.at(own("new.png"))), ended.show)
    os.chmod(d.at("own", "shut"), 0o755)


def names(d):
    write(d.at("-x"), d.given)
    for words, made in (
        (("--", "-x", "-y.png"), "-y.png"),
        (("./-x", d.flatly("./-z")), d.flatly("-z")),
        ((d.good, "--", d.flatly("-w")), d.flatly("-w")),
        (("--png", "--", "-x", "--help"), "--help"),
    ):
        ended = d.draw(*words)
        d.check(f"a leading -: {' '.join(words)}", ended.status == 0 and os.path.exists(d.at(made)) and not ended.said, ended.show)
    for words in (("-x", "y.png"), (d.good, "-y.gif"), ("--jpg", d.good, "y.jpg")):
        ended = d.draw(*words)
        d.check(f"no such option: {' '.join(words)}", d.said_once(ended, 2, b"no option -"), ended.show)
    odd = d.flatly(os.fsdecode(b"caf\xe9 \n$(x)"))
    ended = d.draw(d.good, odd)
    d.check("a name with a blank, a line's end and a byte that is no text", ended.status == 0 and os.path.exists(d.at(odd)), ended.show)


def failing(d):
    for what, given, how, said in (
        (f"a {d.what} that is refused", d.bad, {}, d.cause),
        (f"no such {d.what}", "none", {}, f"no {d.what} that can be read at none".encode()),
        ("room for 1,000 bytes", d.good, {"settings": ["room1000"]}, b"File too large"),
        ("the program prints half", d.good, d.instead(f"head -c {len(d.printed) // 2} {d.at('whole')}"), d.unlike),
        ("the program prints a byte less", d.good, d.instead(f"head -c {len(d.printed) - 1} {d.at('whole')}"), d.unlike),
        ("the program prints a byte more", d.good, d.instead(f"cat {d.at('whole')} {d.at('byte')}"), d.unlike),
        ("the program says a word", d.good, d.instead(f"cat {d.at('nothing')}"), b"No such file"),
        ("no such program", d.good, d.instead(d.at("nothing")), b"can't be run"),
        ("a signal ends the program", d.good, d.instead(d.at("dies")), b"SIGTERM"),
    ):
        write(d.at("kept.png"), mode=0o640)
        write(d.at("whole"), d.printed)
        write(d.at("byte"), b"\0")
        write(d.at("dies"), b"#!/bin/sh\nkill -TERM $$\n", mode=0o755)
        before = os.stat(d.at("kept.png"))
        ended = d.draw(given, "kept.png", **how)
        after = os.stat(d.at("kept.png"))
        stays = read(d.at("kept.png")) == b"kept" and (before.st_ino, before.st_mode) == (after.st_ino, after.st_mode)
        status = 2 if given == "none" else 143 if "signal" in what else 1
        d.check(f"{what}: an older picture stays", d.said_once(ended, status, said) and stays, ended.show)


# A line, and the cause that is told of it.
CAUSES = (
    (b"", "it is empty"),
    (b"01003020\r", "it has a carriage return at its end; a line ends in LF alone"),
    (b"\r", "it has a carriage return at its end; a line ends in LF alone"),
    (b"01\r30", "the byte 0D at column 3 is no hexadecimal digit"),
    (b" 01", "it has a blank at column 1"),
    (b"01003020 ", "it has a blank at column 9"),
    (b"01\t30", "it has a tab at column 3"),
    (b"0100302", "it has an odd number of digits, 7"),
    (b"0", "it has an odd number of digits, 1"),
    (b"0x01", "'x' at column 2 is no hexadecimal digit"),
    (b"0130zz", "'z' at column 5 is no hexadecimal digit"),
    (b"01" + b"30" * 5760 + b",", "',' at column 11,523 is no hexadecimal digit"),
    (b"01\xb1", "the byte B1 at column 3 is no hexadecimal digit"),
    (b"01\0", "the byte 00 at column 3 is no hexadecimal digit"),
    (b"0300", "its first byte is 03; writes begin with 01, a screen with 02"),
    (b"fF", "its first byte is FF; writes begin with 01, a screen with 02"),
    (b"00" * 5761, "its first byte is 00; writes begin with 01, a screen with 02"),
    (b"02", "it has a screen of 0 bytes; a screen has 5,760"),
    (b"0200", "it has a screen of 1 byte; a screen has 5,760"),
    (b"02" + b"1B" * 5759, "it has a screen of 5,759 bytes; a screen has 5,760"),
    (b"02" + b"1B" * 5761, "it has a screen of 5,761 bytes; a screen has 5,760"),
    (b"01" + b"30" * 5761, "it has 5,761 writes; a line has at most 5,760"),
    (b"01" + b"30" * 40000, "it has 40,000 writes; a line has at most 5,760"),
)
# What a log begins with, and the cause that is told of its first line.
STARTS = (
    (b"\x1f\x8b\x08\0\0\0\0\0\n\n", "the log is compressed (gzip); unpack it first"),
    (b"\xfd7zXZ\0\0\n\n", "the log is compressed (xz); unpack it first"),
    (b"\x28\xb5\x2f\xfd\x04\n\n", "the log is compressed (zstd); unpack it first"),
    (b"BZh91AY&SY\n\n", "the log is compressed (bzip2); unpack it first"),
    (b"PK\x03\x04\x14\n\n", "the log is compressed (zip); unpack it first"),
    ("01\n01\n".encode("utf-16"), "the log is UTF-16 text; a log is plain ASCII text"),
)
MARKED = b"\xef\xbb\xbf01\n\n", "it begins with a byte order mark; a log is plain ASCII text"


def told(name, *lines):
    return "".join(f"{name}: {line}\n" for line in lines).encode()


def both_ways(p, name, log):
    """A command on a log that is a file, and on one that comes through a pipe, which can't be read twice."""
    yield "a file", p.bin(name, stdin=log)
    ours, theirs = os.pipe()

    def feed():
        with os.fdopen(theirs, "wb", buffering=0) as pipe, contextlib.suppress(BrokenPipeError):
            view = memoryview(log)
            while view:
                view = view[pipe.write(view[:999]) :]

    feeder = threading.Thread(target=feed)
    feeder.start()
    ended = p.bin(name, stdin=ours)
    os.close(ours)
    feeder.join()
    yield "a pipe", ended


def reasons(t, p, few=False, parts=None):
    """Each cause by its words; that the answer and the status stay; that a cause is seen in just the lines that the program refuses.
    parts: these functions alone."""
    every = (bounded, of_lines, of_plates, of_starts, of_paper, many, agreement)
    side_by_side([part for part in every if parts is None or part.__name__ in parts], t, p)


def of_lines(t, p):
    for at in range(0, len(CAUSES), 10):
        some = CAUSES[at : at + 10]
        log = b"01\n" + b"\n".join(line for line, _ in some) + b"\n01\n"
        said = told("replay", *(f"line {n} is refused: {cause}" for n, (_, cause) in enumerate(some, 2)))
        out = b"".join(b"line %d: 7\n" % n for n in range(2, 2 + len(some))) + answers.HEAD
        for way, ended in both_ways(p, "replay", log):
            well = ended.status == 0 and ended.out == out and ended.said == said
            t.check(f"bin/replay: causes {at} to {at + len(some) - 1}, by {way}", well, lambda: f"{ended.show()} in place of {said!r}")


def of_plates(t, p):
    for line, cause in CAUSES[1::6]:
        for way, ended in both_ways(p, "plate", b"01\n" + line + b"\n" + b"01003020\n" * 3000):
            well = ended.status == 1 and ended.out == b"line 2: 7\n" and ended.said == told("plate", f"line 2 is refused: {cause}")
            t.check(f"bin/plate: {cause}, by {way}", well, ended.show)


def of_starts(t, p):
    """Of a log that is no text, one line is told, and how many more there are."""
    for start, cause in STARTS:
        for way, ended in both_ways(p, "replay", start):
            more = ended.out.count(b"line ") - 1
            said = told("replay", f"line 1 is refused: {cause}", f"{more} more line{'s are' if more > 1 else ' is'} refused")
            t.check(f"bin/replay: {cause}, by {way}", ended.said == said and ended.status == 0, ended.show)
    for way, ended in both_ways(p, "replay", MARKED[0]):
        said = told("replay", f"line 1 is refused: {MARKED[1]}", "line 2 is refused: it is empty")
        t.check(f"bin/replay: a byte order mark, by {way}", ended.said == said and ended.status == 0, ended.show)


def of_paper(t, p):
    """The table of docs/LOG.md has the words that are said, of every sort of cause."""
    rows = read(os.path.join(ROOT, "docs", "LOG.md")).decode().split("| what is said |")[-1].split("\n")[2:]
    words = [row.split(" | ")[0][2:] for row in rows if row.startswith("| ")]
    known = {cause for _, cause in (*CAUSES, *STARTS, MARKED)}
    for cause in words:
        t.check(f"docs/LOG.md: '{cause}' is what bin/replay says", cause in known)
    sort = lambda cause: tuple(word for word in cause.replace("tab", "blank").replace("bytes;", "byte").replace("byte;", "byte").split() if word.isalpha() and word not in ("the", "byte"))
    missing = {sort(cause) for cause in known} - {sort(cause) for cause in words}
    t.check("docs/LOG.md: every sort of cause that bin/replay says", not missing, lambda: str(missing))


def many(t, p):
    """More refused lines than are told, a last one without LF, and a log without any."""
    for count in (10, 11, 5000):
        said = [f"line {n} is refused: it is empty" for n in range(1, 11)]
        said += [] if count == 10 else [f"{count - 10:,} more line{'s are' if count > 11 else ' is'} refused"]
        for way, ended in both_ways(p, "replay", b"\n" * count):
            t.check(f"bin/replay: {count} refused lines, by {way}", ended.said == told("replay", *said) and ended.status == 0, ended.show)
    for way, ended in both_ways(p, "replay", b"01\n01\n013"):
        said = told("replay", "line 3 is refused: it has an odd number of digits, 3")
        t.check(f"bin/replay: a last line without LF, by {way}", ended.said == said, ended.show)
    for way, ended in both_ways(p, "replay", b"01\n01003020\n"):
        t.check(f"bin/replay: no word of a good log, by {way}", ended.status == 0 and not ended.said, ended.show)
    # the last byte that one read gets of a longer line
    for way, ended in both_ways(p, "replay", b"0" * (causes.CHUNK - 1) + b"\r00\n"):
        said = told("replay", f"line 1 is refused: the byte 0D at column {causes.CHUNK:,} is no hexadecimal digit")
        t.check(f"bin/replay: a carriage return at the end of a read, by {way}", ended.said == said, ended.show)
    # from the middle of a file, line 1 is the first that is read
    with tempfile.TemporaryFile() as file:
        file.write(b"\n\n01\n01 \n")
        file.seek(2)
        ended = p.bin("replay", stdin=file.fileno())
    t.check("bin/replay: from the middle of a file", ended.said == told("replay", "line 2 is refused: it has a blank at column 3"), ended.show)


def agreement(t, p):
    """Random logs: a cause is found for each line that the program refuses and for no other, however the log is cut."""

    def one(number):
        log, rng = logs.log(p.seed, 3 * number + 2), logs.random.Random(number)
        refused = [int(line[5:-3]) for line in p.replay(log).out.split(b"\n") if line.startswith(b"line")]
        size = rng.choice((1, 2, 7, 100, 11522, 11523, 65536))
        passing = causes.Passing(1 << 20)
        for at in range(0, len(log), size):
            passing.feed(log[at : at + size])
        passing.end()
        with tempfile.TemporaryFile() as file:
            file.write(log)
            file.flush()
            again = causes.Reread(file.fileno(), 0)
            return number, log, refused, passing.found, {n: again.reason(n) for n in refused}

    with ThreadPoolExecutor(os.cpu_count()) as pool:
        for number, log, refused, found, again in pool.map(one, range(60 * p.scale)):
            show = lambda: f"refused {refused}, found {found}, again {again}"
            t.check(f"replay: causes in damaged log {number} of seed {p.seed}", list(found) == refused and again == found and None not in again.values(), show)


def bounded(t, p):
    """A line of 24 MB in the memory of a short one, by a pipe; by a file it is read a second time."""
    line = lambda size: [b"01\n01"] + [b"0" * (1 << 20)] * size + [b"\n"]
    words = p.command("replay")
    base, ended = (p.runner.watch(words, line(size), 4 * p.runner.limit) for size in (1, 24))
    said = told("replay", f"line 2 is refused: it has {24 << 19:,} writes; a line has at most 5,760")
    t.check("bin/replay: a line of 24 MB", ended.said == said and ended.status == 0, ended.show)
    t.check("bin/replay: a line of 24 MB: memory stays", 0 < ended.memory <= base.memory + 4096, lambda: f"{base.memory} kB, {ended.memory} kB")
    with tempfile.TemporaryFile() as file:
        file.write(b"".join(line(24)))
        file.seek(0)
        ended = p.bin("replay", stdin=file.fileno())
    t.check("bin/replay: a file with a line of 24 MB", ended.said == said and ended.status == 0, ended.show)


class Fake:
    """A repository with this one's commands, whose kit only pretends: its rt leaves a mark, tells crates and makes a program that prints
    BUILT, or fails at the crate that FAILS names."""

    RT = r"""#!/bin/sh
echo "$*" >>"$MARK"
name=$(basename "$PWD")
say() { echo "$*" >&2; }
say "noise of the prover"
for crate in $CRATES "$name"; do
    say "crate $crate: modules loaded=1 checked=2"
    if [ "$crate" = "${FAILS:-}" ]; then say "logic=not-proved"; say "rt: the library $crate did not build, so nothing above it was checked"; exit 1; fi
    say "logic=proved functions=1"
done
printf '#!/bin/sh\ncat >/dev/null\necho BUILT\n' >"out/$name"
chmod +x "out/$name"
say "rt: running out/$name; to give it other input, run that file yourself"
exec "out/$name"
"""

    def __init__(self, folder):
        self.root, self.mark = os.path.join(folder, "repository"), os.path.join(folder, "mark")
        for name in ("bin", "tools/commands", "tools/native", "tools/sample"):
            shutil.copytree(os.path.join(ROOT, name), os.path.join(self.root, name), ignore=shutil.ignore_patterns("__pycache__"))
        os.makedirs(os.path.join(self.root, "tools/programs"))
        for name in ("crates.txt", "VERSION", "tools/programs/start"):
            shutil.copy(os.path.join(ROOT, name), os.path.join(self.root, name))
        self.crates = self.below("plate")
        for program in ("plate", "replay", "check_block", "page"):
            for name in (program, *self.below(program)):
                os.makedirs(os.path.join(self.root, "crates", name), exist_ok=True)
        kit = os.path.join(folder, "kit")
        os.makedirs(os.path.join(kit, "bin"))
        write(os.path.join(kit, "KIT-ID"))
        write(os.path.join(kit, "bin", "rt"), self.RT.encode(), 0o755)
        self.env = {"PATH": f"{kit}/bin:{os.environ['PATH']}", "RATTLE_HOME": kit, "RT": "rt", "MARK": self.mark}
        self.env.update(dict.fromkeys(("REPLAY", "PLATE", "CHECK", "PAGE"), ""), CRATES=" ".join(self.crates))

    def below(self, name):
        uses = {}
        for line in open(os.path.join(ROOT, "crates.txt")):
            if ":" in line.split("#")[0]:
                crate, used = line.split("#")[0].split(":")
                uses[crate.split()[0]] = used.split()
        found, todo = [], list(uses[name])
        for crate in todo:
            if crate in uses and crate not in found:
                found.append(crate)
                todo += uses[crate]
        return found

    def built(self):
        return os.path.exists(self.mark)

    def has(self, crate):
        """Whether this program is there."""
        return os.path.exists(os.path.join(self.root, "crates", crate, "out", crate))


def building(t, p, few=False):
    """Arguments are looked at before anything is built; a build tells how far it is; a folder that can't be written is told as that."""
    with tempfile.TemporaryDirectory() as folder:
        os.chmod(folder, 0o755)
        fake = Fake(folder)
        call = lambda name, *words, **env: p.runner.run([os.path.join(fake.root, "bin", name), *words], env={**fake.env, **env}, cwd=folder)
        first_words(t, fake, call, folder)
        no_room(t, p, fake, call, folder)
        lines = lambda caller: [f"    {n} of at most {len(fake.crates) + 1}: {name} proved" for n, name in enumerate([*fake.crates, caller], 1)]
        ended = call("draw", "a.log", "a.ppm", FAILS="rules")
        said = ended.said.decode().split("\n")
        at = fake.crates.index("rules") + 1
        t.check("a build that fails: the crate is told", f"    {at} of at most {len(fake.crates) + 1}: rules NOT PROVED" in said, ended.show)
        messages = [line for line in said if line and not line.startswith("    ")]
        well = ended.status == 1 and len(messages) == 2 and all(line.startswith("draw: ") for line in messages) and not ended.out
        t.check("a build that fails: draw says so, once", well and "not proved" in messages[1], ended.show)
        ended = call("plate", "a.log")
        shown = [line for line in ended.said.decode().split("\n") if " of " in line and line.startswith("    ")]
        t.check("a first build: which of how many crates", shown == lines("plate"), lambda: f"{shown}")
        t.check("a first build: then the program runs", ended.status == 0 and ended.out == b"BUILT\n" and b"noise" not in ended.said, ended.show)
        ended = call("plate", "a.log")
        t.check("a second run builds nothing", ended.status == 0 and ended.out == b"BUILT\n" and not ended.said, ended.show)
        ended = call("check", "none", ".")
        well = ended.status == 1 and ended.out == b"none: no such file\n.: a folder, and no block\n" and not ended.said
        t.check("bin/check: nothing is built where nothing can be read", well and not fake.has("check_block"), ended.show)
        built_late(t, fake, call, "check", "check_block", ("a.log",), "the program check prints is no verdict")
        built_late(t, fake, call, "page", "page", ("a.log", "a.png"), "page prints is no graymap")


def built_late(t, fake, call, name, crate, words, what):
    """A command builds the crate of its program once there is something to look at, and no second time. What the stand-in prints, it can't use."""
    for time in ("first", "second"):
        ended = call(name, *words, CRATES=" ".join(fake.below(crate)))
        said = ended.said.decode().split("\n")
        building = [line for line in said if line.startswith((f"{name}: proving and compiling {name} first", "    1 of "))]
        well = ended.status == 1 and said[-2].startswith(f"{name}: what {what}") and fake.has(crate)
        t.check(f"bin/{name}: a {time} build", well and len(building) == (2 if time == "first" else 0), ended.show)


def first_words(t, fake, call, folder):
    write(os.path.join(folder, "a.log"), b"01\n")
    for words, status in (
        (("replay", "none.log"), 2),
        (("replay", "."), 2),
        (("replay", "--jpg"), 2),
        (("replay", "a.log", "b.log"), 2),
        (("plate", ""), 2),
        (("plate", "a.log/x"), 2),
        (("draw", "none.log", "a.ppm"), 2),
        (("draw", ".", "a.ppm"), 2),
        (("draw", "a.log"), 2),
        (("draw",), 2),
        (("draw", "a.log", "."), 2),
        (("draw", "a.log", "a.tiff"), 2),
        (("draw", "a.log", "none/a.ppm"), 1),
        (("page",), 2),
        (("page", "a.log"), 2),
        (("page", "none.page", "a.png"), 2),
        (("page", ".", "a.png"), 2),
        (("page", "a.log", "a.ppm"), 2),
        (("page", "--png", "a.log", "a.pgm"), 2),
        (("page", "a.log", "none/a.png"), 1),
        (("page", "--help"), 0),
        (("check",), 2),
        (("check", "--jpg", "a.log"), 2),
        (("check", "-", "-"), 2),
        (("check", "--help"), 0),
        (("replay", "--help"), 0),
        (("plate", "--version"), 0),
        (("draw", "--help"), 0),
    ):
        ended = call(*words)
        one = not ended.said and ended.out if status == 0 else ended.said.startswith(words[0].encode() + b": ") and ended.said.count(b"\n") == 1
        t.check(f"bin/{' '.join(words)}: told at once", ended.status == status and one and not fake.built(), ended.show)


def no_room(t, p, fake, call, folder):
    """A repository that can't be written: to who may not, and where a file has the folder's name."""
    said = f"the folder {os.path.join(os.path.realpath(fake.root), 'target')} can't be written".encode()
    target = os.path.join(fake.root, "target")
    write(target)
    ended = call("replay", "a.log")
    t.check("bin/replay: no folder to build in", ended.status == 1 and said in ended.said and ended.said.count(b"\n") == 1, ended.show)
    os.unlink(target)
    os.chmod(fake.root, 0o555)
    how = {"user": NOBODY, "group": NOBODY} if os.geteuid() == 0 else {}
    start = [os.path.join(fake.root, "tools", "programs", "start"), "--command", "plate", "draw"]
    ended = p.runner.run(start, env=fake.env, cwd=folder, **how)
    os.chmod(fake.root, 0o755)
    well = ended.status == 1 and said in ended.said and ended.said.startswith(b"draw: ") and ended.said.count(b"\n") == 1 and not fake.built()
    t.check("start: a repository that is closed to writing", well, ended.show)
