"""Runs a program: replay or plate on a log, whose output is handed on while it is told why lines are refused; check or page on a few bytes at
hand. And makes a status of how it ended.

A program says on standard error what failed, and ends with status 1. A log that is a regular file is the program's own input, and is read
a second time up to a refused line. Any other input (a pipe, a terminal) can't be: it goes through this script, which looks at its lines on the
way."""

import fcntl
import os
import signal
import stat
import subprocess
import threading

from reasons import Passing, Refusals, Reread
from talk import Failed, cant_write, put, say

START = os.path.join(os.path.dirname(os.path.realpath(__file__)), "..", "programs", "start")
CHUNK = 1 << 16
# So many refused lines are told with their cause; of the others, how many there are.
TOLD = 10
# So much is kept of what a program says: it is a line or two.
SAID = 1 << 14


def command(name, caller):
    """The words that run a program, which is proved and compiled first where that is due. `start` tells by itself what fails."""
    started = subprocess.run([START, "--command", name, caller], stdin=subprocess.DEVNULL, stdout=subprocess.PIPE)
    if started.returncode != 0:
        raise Failed(started.returncode if started.returncode in (1, 2) else 1)
    return [os.fsdecode(word) for word in started.stdout.split(b"\n")[:-1]]


def wide(pipe):
    """Gives a pipe room for more, so that its two ends wait less for each other."""
    try:
        fcntl.fcntl(pipe, 1031, 1 << 20)  # F_SETPIPE_SZ
    except OSError:
        pass  # a user's pipes may have no more room


class Feeder(threading.Thread):
    """Hands input that can't be read twice to the program, and looks at each line on the way."""

    def __init__(self, fd, child):
        super().__init__(daemon=True)
        self.fd, self.child, self.causes, self.failed = fd, child, Passing(TOLD), None

    def run(self):
        to = self.child.stdin.fileno()
        wide(to)
        try:
            while True:
                part = self.part()
                # looked at before the program can tell of it
                self.causes.feed(part) if part else self.causes.end()
                if not part:
                    break
                put(to, part)
        except BrokenPipeError:
            pass  # the program ended first, as `plate` does at a refused line
        self.child.stdin.close()

    def part(self):
        try:
            return os.read(self.fd, CHUNK)
        except OSError as why:
            # an end of input would have the program close its text as if it were whole
            self.failed = f"read: {why.strerror}"
            self.child.kill()
            return b""


class Listener(threading.Thread):
    """Keeps what the program says."""

    def __init__(self, pipe):
        super().__init__(daemon=True)
        self.pipe, self.said = pipe, b""

    def run(self):
        for part in iter(lambda: os.read(self.pipe.fileno(), CHUNK), b""):
            self.said += part[: SAID - len(self.said)]


def run(name, caller, fd, take, tell):
    """Runs the program on the log at `fd`: `take` gets its output piece by piece, `tell` a refused line's number and its cause or None.
    Gives how many lines were refused, and how many of them were not told."""
    words = command(name, caller)
    regular = stat.S_ISREG(os.fstat(fd).st_mode)
    began = os.lseek(fd, 0, os.SEEK_CUR) if regular else 0
    pipe = subprocess.PIPE
    try:
        child = subprocess.Popen(words, stdin=fd if regular else pipe, stdout=pipe, stderr=pipe, bufsize=0)
    except OSError as why:
        raise Failed(1, f"the program {name} can't be run: {why.strerror}")
    feeder, listener = None if regular else Feeder(fd, child), Listener(child.stderr)
    listener.start()
    if feeder:
        feeder.start()
    refusals = Refusals(feeder.causes if feeder else Reread(fd, began), TOLD, tell)
    try:
        for text in iter(lambda: os.read(child.stdout.fileno(), CHUNK), b""):
            take(text)
            refusals.feed(text)
    except BaseException as why:
        child.kill()
        child.wait()
        raise Failed(1, cant_write(why)) if isinstance(why, OSError) else why
    status = child.wait()
    if feeder and feeder.failed and status < 0:
        raise Failed(1, feeder.failed)
    listener.join()
    ended(caller, status, os.fsdecode(listener.said))
    return refusals.told + refusals.more(), refusals.more()


def printed(words, name, data):
    """What a program prints of these bytes; words: those that run it."""
    try:
        done = subprocess.run(words, input=data, stdout=subprocess.PIPE, stderr=subprocess.PIPE)
    except OSError as why:
        raise Failed(1, f"the program {name} can't be run: {why.strerror}")
    ended(name, done.returncode, os.fsdecode(done.stderr))
    return done.stdout


def ended(caller, status, said):
    """Fails where the program did not end well."""
    if said:
        for line in said.rstrip("\n").split("\n"):
            say(caller, line)
        raise Failed(1)
    if status < 0:
        raise Failed(128 - status, f"a signal ended it, {signal.Signals(-status).name}")
    if status > 0:
        raise Failed(1, f"it ended with status {status}")
