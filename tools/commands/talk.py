"""How a command talks to who called it: its arguments, its words on standard error, its exit status.

Exit status of each command: 0 done; 1 what was asked for could not be made, or what was given is refused; 2 bad usage, which is seen
before anything is built or run. A failure is told in one message, by the name of the command that was called."""

import os
import stat

ROOT = os.path.join(os.path.dirname(os.path.realpath(__file__)), "..", "..")
# How a person calls a command: by its path in the repository, or by the name that tools/install gave it, where the folder programs/ is.
INSTALLED = os.path.isdir(os.path.join(ROOT, "programs"))
CALLED = "sporedrift-" if INSTALLED else "bin/"
# Where the papers are that a text of --help names.
PAPERS = os.path.normpath(os.path.join(ROOT, "../../share/doc/sporedrift/docs")) + "/" if INSTALLED else "docs/"


class Failed(Exception):
    """Ends the command with a status. Without a text it has been told already."""

    def __init__(self, status, text=None):
        super().__init__(text)
        self.status, self.text = status, text


def put(fd, data):
    """Writes all of it."""
    view = memoryview(data)
    while view:
        view = view[os.write(fd, view) :]


def say(name, text):
    """A line on standard error. That it can't be written changes nothing."""
    try:
        put(2, os.fsencode(f"{name}: {text}\n"))
    except OSError:
        pass


def cant_write(why):
    """The words for a failed write."""
    return "nobody reads what it writes any more" if isinstance(why, BrokenPipeError) else f"write: {why.strerror}"


def shown(name):
    """A name as a message has it."""
    return name or "''"


def stand_up():
    """Opens what is closed of the descriptors 0 to 2, so that no file that is opened later takes its place. Gives those that were."""
    closed = set()
    for fd in (0, 1, 2):
        try:
            os.fstat(fd)
        except OSError:
            closed.add(fd)
            os.open(os.devnull, os.O_RDWR)  # takes the lowest number that is free
    return closed


def arguments(name, words, options, closed):
    """The options among the words, and the names. --help and --version are answered here, at once."""
    found, names = [], []
    for at, word in enumerate(words):
        if word == "--":
            return found, names + words[at + 1 :]
        if word == "-" or not word.startswith("-"):
            names.append(word)
        elif word in ("--help", "--version"):
            answer(helped(name) if word == "--help" else version(name), closed)
        elif word in options:
            found.append(word)
        else:
            raise Failed(2, f"no option {word} ({CALLED}{name} --help tells of all; for a file of that name: -- {word})")
    return found, names


def answer(text, closed):
    if 1 in closed:
        raise Failed(1, "standard output is closed")
    try:
        put(1, text.encode())
    except OSError as why:
        raise Failed(1, cant_write(why))
    raise Failed(0)


def helped(name):
    with open(os.path.join(os.path.dirname(os.path.realpath(__file__)), "help", name), encoding="ascii") as file:
        return file.read().replace("bin/", CALLED).replace("docs/", PAPERS)


def version(name):
    try:
        with open(os.path.join(ROOT, "VERSION"), encoding="ascii") as file:
            return f"{name} (Sporedrift) {file.read().strip()}\n"
    except OSError as why:
        raise Failed(1, f"the repository is not whole: VERSION: {why.strerror}")


def opened(name, what, closed):
    """A descriptor of the input: a file by its name, or standard input for -."""
    if name == "-":
        if 0 in closed:
            raise Failed(1, "standard input is closed")
        fd, name = 0, "standard input"
    else:
        try:
            fd = os.open(name, os.O_RDONLY | os.O_CLOEXEC)
        except OSError as why:
            raise Failed(2, f"no {what} that can be read at {shown(name)}: {why.strerror}")
    if stat.S_ISDIR(os.fstat(fd).st_mode):
        raise Failed(2, f"{name} is a folder, and no {what}")
    return fd
