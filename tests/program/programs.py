"""What the program tests share: the built programs, runs of them within limits, and one test for each case.

The tests stand beside this file, under Python's own unittest. At the root of the repository:

    python3 -m unittest discover -s tests/program                     all of them, over the programs that tools/build programs built
    python3 -m unittest discover -s tests/program -k two-generations  those whose name has this
    tests/program/run test_replays                                    those of one file, as the gate runs them

A test whose program isn't built is skipped, and says so.
"""
import collections
import functools
import os
import pathlib
import re
import resource
import signal
import subprocess
import sys
import unittest

ROOT = pathlib.Path(__file__).resolve().parents[2]
sys.path.insert(0, str(ROOT / "tools"))
import crates

TESTS = ROOT / "tests"
REPLAYS, REFUSALS = TESTS / "replays", TESTS / "refusals"
EXAMPLES = ROOT / "examples"
# So long a run may take, where its test says nothing else.
SECONDS = 120

ACCEPTED = re.compile(rb"^(?:call|lazy) (\d+) number ", re.M)
TOTALS = re.compile(rb"^cpu (\d+) ran (\d+) back (\d+) routes", re.M)

NOTES = []

# how a run ended, and what it wrote
Run = collections.namedtuple("Run", "status stdout stderr")


class ProgramTest(unittest.TestCase):
    """A test whose failures show all that was written."""

    maxDiff = None


def one_each(cases):
    """Gives a class a test for each case: a name, by which -k finds it, and what the class's `check` is given."""

    def give(tests):
        for name, *given in cases:
            method = f"test_{name}"
            if hasattr(tests, method):
                raise ValueError(f"two cases of {tests.__name__} have the name {name}")
            setattr(tests, method, lambda self, given=given: self.check(*given))
        return tests

    return give


@functools.cache
def built(name):
    """The path of a built program. Where it isn't built, or a source of it is newer, the tests that ask for it are skipped."""
    crate = crates.read()[name]
    if not crate.is_built():
        raise unittest.SkipTest(f"{name} isn't built, or a source of it is newer: tools/build {name}")
    return str(crate.made)


def note(text):
    """Keeps a line that a test says besides its result, which `tell_notes` prints at the end of its file."""
    NOTES.append(text)


def tell_notes():
    if NOTES:
        print("", *NOTES, sep="\n", flush=True)
    NOTES.clear()


def limiter(memory=None, file_bytes=None, closed=None):
    """What gives a new process so many bytes of memory, files of so many bytes, and takes a descriptor from it."""

    def limit():
        if memory is not None:
            resource.setrlimit(resource.RLIMIT_AS, (memory, memory))
        if file_bytes is not None:
            # (a write past the limit fails, and no signal comes)
            signal.signal(signal.SIGXFSZ, signal.SIG_IGN)
            resource.setrlimit(resource.RLIMIT_FSIZE, (file_bytes, file_bytes))
        if closed is not None:
            os.close(closed)

    return limit


def run(command, setup=b"", seconds=SECONDS, limit=None, **streams):
    """How a command ends on a setup, its standard input, or on streams of its own, as subprocess.run has them."""
    given = {"stdout": subprocess.PIPE, "stderr": subprocess.PIPE, **streams}
    if "stdin" not in given:
        given["input"] = setup
    ended = subprocess.run(command, timeout=seconds, preexec_fn=limit, **given)
    return Run(ended.returncode, ended.stdout or b"", ended.stderr or b"")


def is_whole(stdout):
    """Whether so many callbacks of each processor ran or were handed back as were accepted."""
    accepted = collections.Counter(ACCEPTED.findall(stdout))
    ended = {cpu: int(ran) + int(back) for cpu, ran, back in TOTALS.findall(stdout)}
    return accepted.keys() <= ended.keys() and all(accepted[cpu] == many for cpu, many in ended.items())
