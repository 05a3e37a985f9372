"""Runs the suites on the programs; `run` beside this tells of the words. Its last line is 'N passed, M failed'."""

import argparse
import os
import subprocess
import sys
import threading
import time
from concurrent.futures import ThreadPoolExecutor

sys.dont_write_bytecode = True
HERE = os.path.dirname(os.path.abspath(__file__))
ROOT = os.path.dirname(os.path.dirname(HERE))
sys.path.insert(0, HERE)

import answers
import checks
import commands
import failures
import pages
from process import Runner, brief

SUITES = {
    "fixed": answers.fixed,
    "sample": answers.sample,
    "chance": answers.chance,
    "pieces": answers.pieces,
    "short": answers.short,
    "reading": failures.reading,
    "writing": failures.writing,
    "memory": failures.memory,
    "words": failures.words,
    "drawing": commands.drawing,
    "reasons": commands.reasons,
    "building": commands.building,
    "blocks": checks.blocks,
    "checking": checks.checking,
    "pages": pages.pages,
    "carrying": pages.carrying,
}
# Each fault of wrong.py, by program and suite, on which the suite must fail: a test that can't fail tells nothing.
FAULTS = {
    ("replay", "fixed"): "last-line-lost empty-end cr blanks lower-case writes-5761 screen-5759 up-to-the-fault no-block commands-lost "
    "small-digits from-0 no-refusals no-lf",
    ("plate", "fixed"): "goes-on cr screen-5759 small-digits from-0 no-lf",
    ("replay", "sample"): "commands-lost no-block",
    ("plate", "sample"): "row-lost small-digits",
    ("replay", "chance"): "up-to-the-fault",
    ("plate", "chance"): "fifteen-bits goes-on",
    ("replay", "pieces"): "seam first-read-alone",
    ("plate", "pieces"): "seam first-read-alone",
    ("replay", "short"): "last-line-lost",
    ("plate", "short"): "goes-on",
    ("replay", "reading replay"): "reads-unseen",
    ("plate", "reading plate"): "reads-unseen",
    ("page", "reading page"): "reads-unseen",
    ("replay", "writing replay"): "writes-unseen writes-on short-write spins reader-gone",
    ("plate", "writing plate"): "writes-unseen writes-on short-write spins reader-gone",
    ("page", "writing page"): "writes-unseen short-write reader-gone",
    ("replay", "memory"): "nothing",
    ("plate", "memory"): "nothing",
    ("page", "memory"): "nothing",
    ("plate", "words"): "no-refusals",
    ("replay", "reasons of_lines"): "from-0",
    ("replay", "reasons agreement"): "blanks",
    ("plate", "reasons of_plates"): "goes-on",
    ("plate", "drawing failing"): "no-refusals",
    ("check", "blocks"): "all-valid next-offset no-offset long-taken first-read-alone reads-unseen writes-unseen no-lf",
    ("check", "checking many"): "all-valid",
    ("page", "sample"): "planes-swapped",
    ("page", "pages"): "planes-swapped bits-turned sixteen-a-row greys-turned others-black one-line-head long-page short-page first-read-alone "
    "seam no-lf",
    ("page", "carrying lengths"): "short-page",
}


# Likewise each fault of careless.py, by the command of bin/ that has it, and by the part of a suite that is about it.
CARELESS = {
    ("draw", "drawing devices"): "replaces",
    ("draw", "drawing pipes"): "replaces",
    ("draw", "drawing links"): "replaces truncates",
    ("draw", "drawing folders"): "fills-folders",
    ("draw", "drawing older"): "mode-lost part-left",
    ("draw", "drawing endings"): "any-ending small-png",
    ("draw", "drawing descriptors"): "chatty",
    ("draw", "drawing names"): "no-dashes",
    ("draw", "drawing failing"): "truncates two-words",
    ("replay", "reasons of_lines"): "column one-way",
    ("plate", "reasons of_plates"): "silent no-status",
    ("replay", "reasons many"): "more-lost",
    ("replay", "words named"): "no-dash no-dashes",
    ("replay", "words wrongly"): "no-status",
    ("check", "checking many"): "no-status words-lost hex-lost sorted",
    ("check", "checking unread"): "ends-there",
    ("check", "checking oddly"): "no-dashes plain-names",
    ("check", "checking inputs"): "no-dash",
    ("page", "carrying devices"): "replaces",
    ("page", "carrying links"): "truncates",
    ("page", "carrying older"): "mode-lost",
    ("page", "carrying endings"): "any-ending small-png",
    ("page", "carrying descriptors"): "chatty",
    ("page", "carrying names"): "no-dashes",
    ("page", "carrying failing"): "two-words",
    ("page", "carrying lengths"): "no-status lengths-lost",
    ("page", "carrying inputs"): "no-dash",
    ("page", "carrying forms"): "blank-png",
}


class Seen(Exception):
    """A fault was seen."""


class Report:
    """Counts cases; the first failures of a suite are told in full. Where a fault of a program is to be seen, the first failure of a
    case that names that program or the picture ends the suite."""

    SHOWN = 5

    def __init__(self, fault=None):
        self.passed = self.failed = 0
        self.fault = fault
        self.notes = []
        self.lock = threading.Lock()

    def check(self, name, holds, show=lambda: ""):
        with self.lock:
            self.count(name, holds, show)

    def count(self, name, holds, show):
        if holds:
            self.passed += 1
            return
        if self.fault:
            if self.fault in name or (self.fault == "plate" and "draw" in name):
                raise Seen(name)
            return
        self.failed += 1
        if self.failed <= self.SHOWN:
            print(f"  FAILED {name}: {show()}", flush=True)

    def same(self, name, ended, text):
        """The program ended well, without a word, and wrote just this."""
        well = ended.status == 0 and not ended.said and ended.out == text
        self.check(name, well, lambda: f"{ended.show()}\n      in place of {len(text)} bytes {brief(text)}")

    def note(self, text):
        self.notes.append(text)

    def left_out(self, text):
        self.note(f"LEFT OUT: {text}")


class Programs:
    """The programs, alone and by bin/, and the Rust driven by the same log."""

    def __init__(self, options, words, env=None, limit=None, commands=None):
        self.root, self.seed, self.scale = ROOT, options.seed, options.scale
        self.words, self.env, self.commands = words, env, commands or {}
        self.oracle = os.path.join(ROOT, "target", "oracle", "log") if options.oracle else None
        self.emulated = any("qemu" in word for word in words["replay"])
        self.runner = Runner(limit or (200 if self.emulated else 30))
        self.huge = (1 << 30) if options.whole or not self.emulated else (1 << 25)
        self.long = (100 if options.whole else 10) << 20

    def run(self, name, stdin=b"", **how):
        return self.runner.run(self.words[name], stdin, **how)

    def replay(self, log):
        return self.run("replay", log)

    def plate(self, log):
        return self.run("plate", log)

    def command(self, name):
        """The words that run a command of bin/, or what stands in for it."""
        return self.commands.get(name) or [os.path.join(ROOT, "bin", name)]

    def bin(self, name, *arguments, env=None, **how):
        return self.runner.run([*self.command(name), *arguments], env={**(self.env or {}), **(env or {})}, **how)

    def told(self, name, log):
        """What the Rust prints; where it is not at hand, the program on the same log read at once."""
        return self.runner.run([self.oracle, name] if self.oracle else self.words[name], log)

    def in_pieces(self, name, pieces):
        return self.runner.run_in_pieces(self.words[name], pieces)

    def watch(self, name, pieces, times=1):
        return self.runner.watch(self.words[name], pieces, times * self.runner.limit)

    def watch_told(self, name, pieces):
        return self.runner.watch([self.oracle, name], pieces, 4 * self.runner.limit)


def options():
    parser = argparse.ArgumentParser(prog="tools/programs/run")
    parser.add_argument("--seed", type=int, default=20261101, help="of the random logs")
    parser.add_argument("--scale", type=int, default=1, help="so many times as many random logs")
    parser.add_argument("--suite", action="append", choices=[*SUITES, "faults"], help="this suite alone; may be given again")
    parser.add_argument("--whole", action="store_true", help="a log of 100 MB in place of 10, and a line of 1 GB on any machine")
    parser.add_argument("--verbose", action="store_true", help="tell which case sees each fault")
    parser.add_argument("--oracle", action=argparse.BooleanOptionalAction, default=True, help="the Rust is at hand")
    return parser.parse_args()


def words_of(name):
    start = subprocess.run([os.path.join(HERE, "start"), "--command", name], stdout=subprocess.PIPE, text=True)
    if start.returncode != 0:
        raise SystemExit(start.returncode)
    return start.stdout.split("\n")[:-1]


def faults(t, o, words):
    """Each fault, in the place of its program or command beside the others as they are, makes its suite fail."""

    def stand_in(script, fault, line):
        return [sys.executable, "-IS", os.path.join(HERE, script), fault, *line]

    def program(name, fault):
        wrong = {**words, name: stand_in("wrong.py", fault, words[name])}
        env = {name.upper(): " ".join(line) for name, line in wrong.items()}
        return Programs(o, wrong, env, limit=3 if fault == "spins" else None)

    def command(name, fault):
        return Programs(o, words, commands={name: stand_in("careless.py", fault, [os.path.join(ROOT, "bin", name)])})

    def seen(place):
        make, name, (suite, *parts), fault = place
        started = time.monotonic()
        try:
            SUITES[suite](Report(fault=name), make(name, fault), few=True, **({"parts": parts} if parts else {}))
        except Seen as case:
            return place, f"seen by {case}, {time.monotonic() - started:.1f} s"
        return place, None

    places = [(program, name, suite.split(), fault) for (name, suite), names in FAULTS.items() for fault in names.split()]
    places += [(command, name, suite.split(), fault) for (name, suite), names in CARELESS.items() for fault in names.split()]
    owed = [place for place in places if o.oracle or place[2][0] not in ("chance", "short")]
    if len(owed) < len(places):
        t.left_out("faults that only the Rust's answers show: it is not at hand")
    with ThreadPoolExecutor(os.cpu_count()) as pool:
        for (_, name, suite, fault), case in pool.map(seen, owed):
            t.check(f"the fault {fault} of {name} is not seen by {' '.join(suite)}", case is not None)
            if case and o.verbose:
                t.note(f"{fault} of {name} in {' '.join(suite)}: {case}")


def main():
    o = options()
    # the commands run by the python that runs this, and not by way of a manager of versions, which takes its time
    os.environ["PATH"] = os.pathsep.join((os.path.dirname(sys.executable), os.environ["PATH"]))
    words = {name: words_of(name) for name in ("replay", "plate", "check", "page")}
    programs = Programs(o, words)
    passed = failed = 0
    for name in o.suite or [*SUITES, "faults"]:
        started, t = time.monotonic(), Report()
        if name == "faults":
            faults(t, o, words)
        else:
            SUITES[name](t, programs)
        print(f"{name}: {t.passed + t.failed} cases, {t.failed} failed, {time.monotonic() - started:.1f} s", flush=True)
        for note in t.notes:
            print(f"  {note}", flush=True)
        passed, failed = passed + t.passed, failed + t.failed
    print(f"{passed} passed, {failed} failed")
    raise SystemExit(1 if failed or not passed else 0)


main()
