"""The programs as these measures run them, each started and watched by watch.c."""

import os
import subprocess
import sys

HERE = os.path.dirname(os.path.abspath(__file__))
ROOT = os.path.dirname(os.path.dirname(HERE))
OUT = os.path.join(ROOT, "target", "bench")
SAMPLE = os.path.join(ROOT, "samples", "dusk.log")
STRICT = ["-std=c99", "-Wall", "-Wextra", "-Wpedantic", "-Werror", "-O2"]


def compiled(name, *words):
    """A C file of this folder as target/bench/NAME."""
    os.makedirs(OUT, exist_ok=True)
    program = os.path.join(OUT, name)
    # bound at once: where a function of the C library is first called, the loader's own work would else be counted
    must(["cc", *STRICT, "-Wl,-z,now", os.path.join(HERE, f"{name}.c"), *words, "-o", program])
    return program


def must(words, status=0, **how):
    """Runs it; what it says goes to standard error. Another status than this one ends this program too."""
    try:
        done = subprocess.run(words, **how)
    except OSError as why:
        raise SystemExit(f"bench: {why}")
    if done.returncode != status:
        raise SystemExit(f"bench: {' '.join(words)} ended with status {done.returncode}, and not {status}")
    return done


def words_of(name):
    """The words that run a program, proved and compiled first where that is due."""
    start = os.path.join(ROOT, "tools", "programs", "start")
    return must([start, "--command", name], stdout=subprocess.PIPE, text=True).stdout.split("\n")[:-1]


def emulated(words):
    return any("qemu" in word for word in words)


class Watch:
    def __init__(self):
        self.words = [compiled("watch")]
        self.told = os.path.join(OUT, "watched")

    def run(self, words, settings=(), stdin=SAMPLE, stdout=os.devnull, status=0):
        """What watch.c tells of a run on these files, as numbers. What the program says is not shown, and it has to end with this status."""
        given = os.open(stdin, os.O_RDONLY)
        try:
            with open(stdout, "wb") as wrote:
                must([*self.words, *settings, self.told, *words], status, stdin=given, stdout=wrote, stderr=subprocess.DEVNULL)
        finally:
            os.close(given)
        with open(self.told) as told:
            return [float(word) for word in told.read().split()]

    def stack(self, words, **files):
        return int(self.run(words, ["--stack"], **files)[0])

    def time_and_memory(self, words, log):
        return self.run(words, stdin=log)


def end(missed):
    if missed:
        print(f"\n{missed} MISSED")
    sys.exit(1 if missed else 0)
