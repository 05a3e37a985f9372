"""How a test runs a program: on given input and output, under a time limit, with what it wrote, said and used told at the end."""

import array
import fcntl
import os
import signal
import socket
import subprocess
import sys
import tempfile
import termios
import threading
import time
from dataclasses import dataclass

LAUNCH = os.path.join(os.path.dirname(os.path.abspath(__file__)), "launch.py")


@dataclass
class Ended:
    """status: the exit status, negative for a signal, None if the time limit ended the program. memory: the most that it held, in
    kB, where that was watched."""

    out: bytes
    said: bytes
    status: int
    memory: int = None

    def failed_clearly(self):
        """Ended by itself or by a signal, with a word or a status that tells of it."""
        return self.status is not None and (self.status != 0 or self.said != b"")

    def show(self):
        how = "ran out of time" if self.status is None else f"status {self.status}"
        said = f", said {self.said[:200]!r}" if self.said else ""
        return f"{how}, {len(self.out)} bytes {brief(self.out)}{said}"


def brief(text, most=120):
    return repr(text) if len(text) <= most else f"{text[: most // 2]!r} .. {text[-most // 2 :]!r}"


class Runner:
    """limit: the seconds that a run may take."""

    def __init__(self, limit):
        self.limit = limit

    def run(self, words, stdin=b"", stdout=None, settings=(), env=None, limit=None, **how):
        """stdin: bytes, a descriptor, or None for a closed one. stdout: None for a file whose contents are told, a descriptor, or
        "closed". settings: those of launch.py. how: what subprocess takes besides, as cwd."""
        settings = [*settings, *["close0"] * (stdin is None), *["close1"] * (stdout == "closed")]
        if settings:
            words = [sys.executable, "-IS", LAUNCH, ",".join(settings), *words]
        with tempfile.TemporaryFile() as given, tempfile.TemporaryFile() as wrote, tempfile.TemporaryFile() as said:
            if isinstance(stdin, bytes):
                given.write(stdin)
                given.seek(0)
            child = subprocess.Popen(
                words,
                stdin=given if isinstance(stdin, bytes) or stdin is None else stdin,
                stdout=wrote if stdout in (None, "closed") else stdout,
                stderr=said,
                env={**os.environ, **(env or {})},
                start_new_session=True,
                **how,
            )
            status = self.wait(child, limit or self.limit)
            wrote.seek(0)
            said.seek(0)
            return Ended(wrote.read(), said.read(), status)

    def wait(self, child, limit):
        try:
            return child.wait(limit)
        except subprocess.TimeoutExpired:
            # the child leads a session of its own: what it started goes with it
            os.killpg(child.pid, signal.SIGKILL)
            child.wait()
            return None

    def run_in_pieces(self, words, pieces):
        """No read gets more than a piece. Of small ones each read gets one: a socket that keeps messages apart stands as the input, from
        which a read takes a whole message and drops what it has no room for. Large ones go through a pipe that is emptied between."""
        if max(map(len, pieces)) > 1000:
            return self.watch(words, pieces, each=True)
        ours, theirs = socket.socketpair(socket.AF_UNIX, socket.SOCK_SEQPACKET)

        def feed():
            with ours:
                try:
                    for piece in pieces:
                        ours.send(piece)
                except OSError:
                    pass  # the program ended first, as `plate` does at a refused line

        feeder = threading.Thread(target=feed)
        with theirs:
            feeder.start()
            ended = self.run(words, stdin=theirs.fileno())
        feeder.join()
        return ended

    def watch(self, words, pieces, limit=None, each=False):
        """Feeds pieces through a pipe, if asked each only once the one before is read, and watches how much memory the program holds
        until all are."""
        with tempfile.TemporaryFile() as wrote, tempfile.TemporaryFile() as said:
            child = subprocess.Popen(words, stdin=subprocess.PIPE, stdout=wrote, stderr=said, start_new_session=True, bufsize=0)
            alarm = threading.Timer(limit or self.limit, lambda: os.killpg(child.pid, signal.SIGKILL))
            alarm.start()
            most, started = 0, time.monotonic()
            try:
                for i, piece in enumerate(pieces):
                    view = memoryview(piece)
                    while view:
                        view = view[child.stdin.write(view) :]
                    if each:
                        drained(child)
                    if i % 16 == 0:
                        most = max(most, held(child.pid))
                drained(child)
                most = max(most, held(child.pid))
            except BrokenPipeError:
                pass  # it ended before it had read all
            child.stdin.close()
            status = child.wait()
            alarm.cancel()
            if status == -signal.SIGKILL and time.monotonic() - started >= (limit or self.limit):
                status = None
            wrote.seek(0)
            said.seek(0)
            return Ended(wrote.read(), said.read(), status, most)


def held(pid):
    """The most memory that a process ever held, in kB: 0 once it has ended."""
    try:
        with open(f"/proc/{pid}/status") as status:
            return next((int(line.split()[1]) for line in status if line.startswith("VmHWM")), 0)
    except OSError:
        return 0


def drained(child):
    """Waits until the program has read all that is in its pipe, or has ended."""
    waiting = array.array("i", [1])
    while waiting[0] and child.poll() is None:
        fcntl.ioctl(child.stdin.fileno(), termios.FIONREAD, waiting)
        time.sleep(0.001 if waiting[0] else 0)
