"""Suites on what goes wrong around the programs: input that can't be read, output that can't be written, lines, logs and pages without end,
and the words that the commands in bin/ say. Each run is under a time limit, so that nothing loops."""

import fcntl
import os
import shutil
import sys
import tempfile
import threading

import answers

MEGABYTE = 1 << 20
# What a command is given, so that it reads standard input and writes standard output.
THROUGH = {"page": ("-", "-")}
# How much more a program may hold, in kB, after a thousand times the input.
SPARE = 1024


def dusk(p, kind="log"):
    with open(os.path.join(p.root, "samples", f"dusk.{kind}"), "rb") as file:
        return file.read()


def sample_of(p, name):
    """What a program takes."""
    return dusk(p, "page" if name == "page" else "log")


def ways(p, name):
    """The program, and its command of bin/."""
    return (lambda **how: p.run(name, **how)), (lambda **how: p.bin(name, *THROUGH.get(name, ()), **how))


def refuses(t, p, what, name, wanted, **how):
    """The program alone says a word or ends by a signal; bin/NAME says a word and has a status. What was written is a beginning of
    what is wanted, and not all of it."""
    for via, run in zip(("", "bin/"), ways(p, name)):
        ended = run(**how)
        clear = ended.failed_clearly() if not via else ended.status not in (0, None) and ended.said != b""
        kept = wanted.startswith(ended.out) and ended.out != wanted
        t.check(f"{via}{name}: {what}", clear and kept, ended.show)


def reading(t, p, few=False, parts=("replay", "plate", "page")):
    """Input that can't be read: no answer that looks whole, and a word. parts: of these programs."""
    for name in parts:
        wanted = p.run(name).out
        with_descriptor(lambda fd: refuses(t, p, "input is a folder", name, wanted, stdin=fd), "/", os.O_RDONLY)
        with_descriptor(lambda fd: refuses(t, p, "input is for writing", name, wanted, stdin=fd), os.devnull, os.O_WRONLY)
        refuses(t, p, "input is closed", name, wanted, stdin=None)
        for run in ways(p, name):
            t.check(f"{name}: a read fails after a line", *stops_midway(run, b"01\n01003020\n0100", wanted))
            if name == "page":
                # and so it is not known that the page ends there
                whole = sample_of(p, name)
                t.check(f"{name}: a read fails after a whole one", *stops_midway(run, whole, p.run(name, whole).out))


def stops_midway(run, given, whole):
    """A pipe that does not wait: once it is empty, a read of it fails."""
    ours, theirs = os.pipe()
    os.set_blocking(ours, False)
    os.write(theirs, given)
    ended = run(stdin=ours)
    os.close(ours)
    os.close(theirs)
    return ended.failed_clearly() and not ended.out.endswith(b"0000\n") and ended.out != whole, ended.show


def with_descriptor(use, path, flags):
    fd = os.open(path, flags)
    try:
        use(fd)
    finally:
        os.close(fd)


def writing(t, p, few=False, parts=("replay", "plate", "page")):
    """Output that can't be written, from the first byte on or at the last alone. parts: of these programs."""
    for name in parts:
        given = sample_of(p, name)
        program, command = ways(p, name)
        whole = program(stdin=given).out
        refuses(t, p, "output is closed", name, whole, stdin=given, stdout="closed")
        with_descriptor(lambda fd: refuses(t, p, "output is full", name, whole, stdin=given, stdout=fd), "/dev/full", os.O_WRONLY)
        with_descriptor(lambda fd: refuses(t, p, "output is for reading", name, whole, stdin=given, stdout=fd), os.devnull, os.O_RDONLY)
        for most in (1, len(whole) - 1) if few else (0, 1, 100, len(whole) // 2, len(whole) - 27, len(whole) - 2, len(whole) - 1):
            # the limit is on every file, so with room for nothing the program's own word has none either: bin/ takes it by a pipe
            for run in (program, command) if most else (command,):
                ended = run(stdin=given, settings=[f"room{most}"])
                t.check(f"{name}: room for {most} of {len(whole)} bytes", ended.failed_clearly() and ended.out == whole[:most], ended.show)
        ended = command(stdin=given, settings=[f"room{len(whole)}"])
        t.check(f"{name}: room for just all", ended.status == 0 and ended.out == whole and not ended.said, ended.show)
        for deaf in (False, True):
            nobody_reads(t, p, name, given, deaf)
        fails_once(t, p, name)
        slowly(t, p, name, whole, given)


def nobody_reads(t, p, name, given, deaf):
    """A pipe whose reader has gone: the system ends the program, or, where that is turned off, a write fails."""
    for by, run in zip(("program", "command"), ways(p, name)):
        ours, theirs = os.pipe()
        os.close(ours)
        ended = run(stdin=given, stdout=theirs, settings=["deaf"] if deaf else [])
        os.close(theirs)
        clear = ended.failed_clearly() if by == "program" else ended.status not in (0, None) and ended.said != b""
        t.check(f"{name}: nobody reads{', a write fails' if deaf else ''}", clear, ended.show)


def fails_once(t, p, name):
    """A pipe that does not wait, with room for 4,096 bytes: where a long text has none, the short one behind it still has. Once a write has
    failed nothing more is written, and that is said in one word. Of replay the log fills it up to 40 bytes with refused lines; then a
    command of two packets is told in 65, and the closing line in 27."""
    replayed = b"\n" * 347 + answers.hexed(b"\x01" + answers.pulses(bytes((0x22,)).ljust(32, b"\0")))
    given = replayed if name == "replay" else sample_of(p, name)
    whole = p.run(name, given).out
    for run in ways(p, name):
        ours, theirs = os.pipe()
        fcntl.fcntl(theirs, 1031, 4096)  # F_SETPIPE_SZ
        os.set_blocking(theirs, False)
        ended = run(stdin=given, stdout=theirs)
        os.close(theirs)
        with os.fdopen(ours, "rb") as pipe:
            ended.out = pipe.read()
        kept = whole.startswith(ended.out) and 0 < len(ended.out) < len(whole)
        # a command may have told the cause of lines whose text was written before
        words = [word for word in ended.said.splitlines() if b" is refused: " not in word]
        t.check(f"{name}: a write fails and the next would not", ended.failed_clearly() and kept and len(words) == 1, ended.show)


def slowly(t, p, name, whole, given):
    """A reader that takes a few bytes at a time from a pipe with little room: nothing is lost. It takes the last of it at once."""
    ours, theirs = os.pipe()
    fcntl.fcntl(theirs, 1031, 4096)  # F_SETPIPE_SZ
    got = []

    def take():
        with os.fdopen(ours, "rb", buffering=0) as pipe:
            for size in (1, 2, 3, 7, 31, 1000, 4095):
                got.extend(pipe.read(size) for _ in range(20))
            got.append(b"".join(iter(lambda: pipe.read(999), b"")))

    reader = threading.Thread(target=take)
    reader.start()
    ended = p.run(name, stdin=given, stdout=theirs)
    os.close(theirs)
    reader.join()
    t.check(f"{name}: a slow reader gets all", ended.status == 0 and b"".join(got) == whole, ended.show)


def memory(t, p, few=False):
    """A line of a gigabyte, a log of any length, and a page with megabytes behind it: refused or replayed in the memory that a short one takes."""
    huge = 32 * MEGABYTE if few else p.huge
    base, ended = (p.runner.watch(p.words["page"], [dusk(p, "page")] + [bytes(MEGABYTE)] * more, each=True) for more in (0, 32))
    t.check("page: one with 32 MB behind it", ended.out == b"10\n" and ended.status == 0, ended.show)
    bounded(t, "page: one with 32 MB behind it", base, ended, "a page")
    for digit in (b"0", b"\xff"):
        line = lambda size: [b"01"] + [digit * MEGABYTE] * (size // MEGABYTE) + [b"\n01003020"]
        base = p.watch("replay", line(MEGABYTE))
        ended = p.watch("replay", line(huge), 4)
        text = b"line 1: 7\n00000001000100000101000000\n"
        t.check(f"replay: a line of {huge} bytes", ended.out == text and ended.status == 0, ended.show)
        bounded(t, f"replay: a line of {huge} bytes", base, ended)
        ended = p.watch("plate", line(huge), 4)
        t.check(f"plate: a line of {huge} bytes", ended.out == b"line 1: 7\n" and ended.status == 0, ended.show)
    piece = dusk(p) + b"\n".join(answers.logs.damaged_line(answers.logs.random.Random(i)) for i in range(20)) + b"\n"
    for name, piece in (("replay", piece), ("plate", dusk(p))):
        few_of_them, many = MEGABYTE // len(piece), (4 * MEGABYTE if few else p.long) // len(piece)
        base = p.watch(name, [piece] * few_of_them)
        ended = p.watch(name, [piece] * many, 4)
        bounded(t, f"{name}: a log of {many * len(piece)} bytes", base, ended)
        if p.oracle:
            t.check(f"{name}: a log of {many * len(piece)} bytes", ended.out == p.watch_told(name, [piece] * many).out, ended.show)


def bounded(t, what, base, ended, first="a megabyte"):
    told = f"{base.memory} kB after {first}, {ended.memory} kB after all"
    t.check(f"{what}: memory stays", 0 < ended.memory <= base.memory + SPARE, lambda: told)
    t.note(f"{what}: {told}")


def words(t, p, few=False, parts=("wrongly", "asked", "named")):
    """What the commands in bin/ say to one who calls them wrongly, or asks what they do. One failure is one message, by the command's name.
    parts: these functions alone."""
    for part in (wrongly, asked, named):
        if part.__name__ in parts:
            part(t, p)


def wrongly(t, p):
    with tempfile.TemporaryDirectory() as folder:
        log, picture = os.path.join(folder, "a.log"), os.path.join(folder, "a.ppm")
        for what, text, said in (
            ("no argument", None, b"no log given"),
            ("no such log", None, b"no log that can be read"),
            ("a refused line", b"01\n01\n01 \n01\n", b"no picture: line 3 of "),
            ("an empty line", b"\n", b"no picture: line 1 of "),
        ):
            if text:
                with open(log, "wb") as file:
                    file.write(text)
            ended = p.bin("draw", *([] if what == "no argument" else [log, picture]))
            status = 1 if text else 2
            t.check(f"bin/draw: {what}", one_message("draw", ended, status, said), ended.show)
            left = sorted(set(os.listdir(folder)) - {"a.log"})
            t.check(f"bin/draw: {what}: no file is left", not left, lambda: str(left))
    bare = ("bash", "env", "dirname", "readlink", "uname")
    for name in ("replay", "plate"):
        ended = p.bin(name, "one", "two")
        t.check(f"bin/{name}: too many words", one_message(name, ended, 2, b"usage: bin/"), ended.show)
        ended = p.bin(name, env={"PATH": only(*bare, "python3"), "REPLAY": "", "PLATE": ""})
        t.check(f"bin/{name}: no rt on the path", one_message(name, ended, 2, b"no rt on the path"), ended.show)
        ended = p.bin(name, env={"PATH": only(*bare)})
        t.check(f"bin/{name}: no python3 on the path", one_message(name, ended, 2, b"no python3 on the path"), ended.show)
    for what, text in (("half a plate", answers.BLANK[:-1025]), ("a word lost", answers.BLANK[4:]), ("no plate", b"\x89PNG"), ("nothing", b"")):
        ended = p.bin("ppm", stdin=text)
        t.check(f"bin/ppm: {what}", one_message("ppm", ended, 1, b"no plate"), ended.show)
    ended = p.bin("ppm", stdin=b"line 3: 7\n")
    t.check("bin/ppm: a refusal", one_message("ppm", ended, 1, b"it is a refusal, line 3: 7"), ended.show)
    with open("/dev/full", "wb") as full:
        ended = p.bin("ppm", stdin=answers.BLANK, stdout=full)
        t.check("bin/ppm: output is full", one_message("ppm", ended, 1, b"write: No space left"), ended.show)


def one_message(name, ended, status, *parts):
    """Ended with this status, no output, and one line from this command that has these parts."""
    one = ended.said.startswith(name.encode() + b": ") and ended.said.count(b"\n") == 1
    return ended.status == status and one and all(part in ended.said for part in parts) and not ended.out


def asked(t, p):
    """--help and --version, and options that are none."""
    with open(os.path.join(p.root, "VERSION"), "rb") as file:
        version = file.read()
    for name in ("check", "draw", "page", "plate", "ppm", "replay"):
        ended = p.bin(name, "--version")
        t.same(f"bin/{name}: --version", ended, name.encode() + b" (Sporedrift) " + version)
        ended = p.bin(name, "--help")
        told = all(word in ended.out for word in (b"usage: bin/" + name.encode(), b"--help", b"--version", b"Exit status: 0"))
        t.check(f"bin/{name}: --help", ended.status == 0 and told and not ended.said, ended.show)
        ended = p.bin(name, "--hepl")
        t.check(f"bin/{name}: no such option", one_message(name, ended, 2, b"no option --hepl"), ended.show)
    with open("/dev/full", "wb") as full:
        ended = p.bin("replay", "--help", stdout=full)
        t.check("bin/replay: --help, output is full", one_message("replay", ended, 1, b"write: "), ended.show)


def named(t, p):
    """- for standard input, -- before a name, and names that begin with -."""
    log = b"01003020\n"
    for name, given in (("replay", log), ("plate", log), ("ppm", answers.BLANK)):
        due = p.run(name, given).out if name != "ppm" else p.bin("ppm", "--ppm", stdin=given).out
        with tempfile.TemporaryDirectory() as folder:
            with open(os.path.join(folder, "-x"), "wb") as file:
                file.write(given)
            for words in (("-",), ("--", "-")):
                t.same(f"bin/{name}: {' '.join(words)} is standard input", p.bin(name, *words, stdin=given), due)
            for words in (("--", "-x"), ("./-x",)):
                t.same(f"bin/{name}: {' '.join(words)} is a file", p.bin(name, *words, cwd=folder), due)
            ended = p.bin(name, "-x", cwd=folder)
            t.check(f"bin/{name}: -x is no option", one_message(name, ended, 2, b"no option -x"), ended.show)
            ended = p.bin(name, folder)
            t.check(f"bin/{name}: a folder", one_message(name, ended, 2, b"is a folder"), ended.show)


FOLDERS = []


def only(*names):
    """A folder with just these tools, to stand as the path."""
    folder = tempfile.TemporaryDirectory()
    FOLDERS.append(folder)
    for name in names:
        found = sys.executable if name == "python3" else shutil.which(name)
        os.symlink(os.path.realpath(found), os.path.join(folder.name, name))
    return folder.name
