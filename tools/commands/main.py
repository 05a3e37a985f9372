"""main.py NAME ARGUMENTS..: the commands of bin/, check, draw, page, plate, ppm and replay. Their help is in the folder help/."""

import os
import signal
import sys

sys.dont_write_bytecode = True
sys.path.insert(0, os.path.dirname(os.path.realpath(__file__)))

import program
import saved
import sized
from pictures import PLATE, Unlike, of_graymap, of_plate
from talk import CALLED, Failed, arguments, cant_write, opened, put, say, shown, stand_up
from target import Target, descriptor

PAGE = 4096
# The forms in which a command writes a picture: each has its option and its ending, and the last is for where neither says which.
FORMS = {"draw": ("png", "ppm"), "page": ("png", "pgm"), "ppm": ("png", "ppm")}
USAGE = {
    "check": f"{CALLED}check BLOCK..",
    "draw": f"{CALLED}draw [--png | --ppm] LOG PICTURE",
    "page": f"{CALLED}page [--png | --pgm] PAGE PICTURE",
    "plate": f"{CALLED}plate [LOG]",
    "ppm": f"{CALLED}ppm [--png | --ppm] [PLATE] >PICTURE",
    "replay": f"{CALLED}replay [LOG]",
}


def usage(name):
    return Failed(2, f"usage: {USAGE[name]} ({CALLED}{name} --help tells more)")


def one_input(name, names, what, closed):
    """The input of a command that takes one name, or standard input."""
    if len(names) > 1:
        raise usage(name)
    if not names and 0 not in closed and os.isatty(0):
        raise Failed(2, f"no {what} given: {USAGE[name]}, or - for what is typed")
    fd = opened(names[0] if names else "-", what, closed)
    if 1 in closed:
        raise Failed(1, "standard output is closed")
    return fd


def play(name, words, closed):
    """replay and plate: the program's text as it stands, and on standard error why a line is refused."""
    _, names = arguments(name, words, (), closed)
    fd = one_input(name, names, "log", closed)
    told = lambda number, cause: say(name, refused(number, cause))
    lines, more = program.run(name, name, fd, lambda text: put(1, text), told)
    if more:
        say(name, f"{more:,} more {'lines are' if more > 1 else 'line is'} refused")
    # a log with refused lines is replayed without them; there is no plate of it
    return 1 if name == "plate" and lines else 0


def refused(number, cause, of=""):
    return f"line {number}{of} is refused" + (f": {cause}" if cause else "")


def ppm(name, words, closed):
    asked, names = asked_form(name, words, closed)
    fd = one_input(name, names, "plate", closed)
    text, _ = taken(fd, PLATE)
    if text.startswith(b"line ") and len(text) < 100:
        raise Failed(1, f"no plate: it is a refusal, {text.decode('ascii', 'replace').strip()}")
    try:
        put(1, of_plate(text, asked or FORMS[name][-1]))
    except Unlike as why:
        raise Failed(1, str(why))
    except OSError as why:
        raise Failed(1, cant_write(why))
    return 0


def draw(name, words, closed):
    log, fd, form, target = from_and_to(name, words, "log", closed)
    text, causes = [], []
    program.run("plate", name, fd, text.append, lambda *told: causes.append(told))
    if causes:
        raise Failed(1, "no picture: " + refused(*causes[0], of=f" of {log}"))
    return drawn(name, "plate", lambda: of_plate(b"".join(text), form), target)


def page(name, words, closed):
    """The program's graymap, or that the page is refused."""
    given, fd, form, target = from_and_to(name, words, "page", closed)
    data, size = taken(fd, PAGE)
    printed = program.printed(program.command(name, name), name, data)
    if printed == b"10\n":
        raise Failed(1, f"no picture: {given} is refused, 10: {sized.length(size, PAGE, 'page')}")
    return drawn(name, name, lambda: of_graymap(printed, form), target)


def from_and_to(name, words, what, closed):
    """Of a command that draws one file into another: what the first is called, its descriptor, the picture's form, and where it goes."""
    asked, names = asked_form(name, words, closed)
    if not names:
        raise Failed(2, f"no {what} given: {USAGE[name]}, as {CALLED}{name} samples/dusk.{what} dusk.{FORMS[name][-1]}")
    if len(names) != 2:
        raise usage(name)
    given, picture = names
    form = form_of(name, picture, asked)
    fd = opened(given, what, closed)
    target = Target(picture, closed)
    if target.is_file(fd):
        raise Failed(2, f"{picture} is the {what} itself")
    return "standard input" if given == "-" else given, fd, form, target


def drawn(name, printer, picture, target):
    """Makes the picture of what that program printed, and writes it. Gives the status."""
    try:
        data = picture()
    except Unlike as why:
        raise Failed(1, f"what {printer} prints is {why}")
    target.write(data)
    if target.through is None:
        try:
            put(1, os.fsencode(f"{name}: {target.name}\n"))
        except OSError:
            pass  # the picture is there
    return 0


def taken(fd, due):
    """What `sized` takes of an input that is already open."""
    try:
        return sized.taken(fd, due)
    except OSError as why:
        raise Failed(1, f"read: {why.strerror}")


def check(name, words, closed):
    """A line a file: the program's verdict, and what is wrong. What can't be read has its line too."""
    _, names = arguments(name, words, (), closed)
    if not names:
        raise Failed(2, f"no block given: {USAGE[name]}, or - for standard input")
    if names.count("-") > 1:
        raise Failed(2, "- is given twice, and standard input can be read once")
    if 1 in closed:
        raise Failed(1, "standard output is closed")
    status, run = 0, None
    for each in names:
        try:
            data, size = saved.taken(each, closed)
            # built only where there is something to judge
            run = run or program.command(name, name)
            number, offset = saved.judged(run, name, data)
            line = saved.told(number, offset, data, size)
        except saved.NoBytes as why:
            number, line = None, str(why)
        status = status if number == 0 else 1
        try:
            put(1, os.fsencode(f"{shown(each)}: {line}\n"))
        except OSError as why:
            raise Failed(1, cant_write(why))
    return status


def asked_form(name, words, closed):
    """The form of picture that the options ask for, or None; and the names."""
    options, names = arguments(name, words, [f"--{form}" for form in FORMS[name]], closed)
    if len(set(options)) > 1:
        raise Failed(2, f"{' and '.join(sorted(set(options)))} don't go together")
    return options[0][2:] if options else None, names


def form_of(name, picture, asked):
    """The form of the picture: by its name's ending, or by that of what it links to; where there is none, as asked, or the command's own."""
    forms = FORMS[name]
    for path in (picture, os.path.realpath(picture)) if descriptor(picture) is None else ():
        end = os.path.splitext(path)[1].lower() or os.path.basename(path).lower()
        if end[:1] == "." and end[1:] in forms:
            if asked not in (None, end[1:]):
                raise Failed(2, f"--{asked} and the ending of {path} don't go together")
            return end[1:]
        if os.path.splitext(path)[1] and (os.path.isfile(path) or not os.path.exists(path)):
            raise Failed(2, f"{path} ends in no picture format that this writes: {' or '.join(f'.{form}' for form in forms)}")
    return asked or forms[-1]


def main():
    closed = stand_up()
    name, words = sys.argv[1], sys.argv[2:]
    for number in (signal.SIGINT, signal.SIGTERM, signal.SIGHUP):
        # ends it as any failure does, so that nothing half done is left
        if signal.getsignal(number) != signal.SIG_IGN:
            signal.signal(number, lambda n, _: sys.exit(128 + n))
    try:
        status = {"check": check, "draw": draw, "page": page, "plate": play, "ppm": ppm, "replay": play}[name](name, words, closed)
    except Failed as why:
        if why.text:
            say(name, why.text)
        status = why.status
    except SystemExit as why:
        status = why.code
    # at once: a thread may still wait for input that nobody asks for any more
    os._exit(status)


main()
