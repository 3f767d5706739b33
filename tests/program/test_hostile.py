"""Runs rcuo on hostile setups, input that can't be read, output that can't be written and words that are refused, and sees how
each run ends: with the status, the output and the fault line that docs/specification/tables.md says, in under 60 seconds, within
2 GiB of memory, which is all that it is given, and never by a signal.
"""
import functools
import itertools
import os
import re
import subprocess
import tempfile
import unittest

import programs
from programs import REPLAYS, ROOT, ProgramTest, Run, built, limiter, one_each

SECONDS = 60
BYTES = 2 << 30
MOST_BYTES = 1048576
DEEP = 100000
LONG = 1000000
LETTERS = "0123456789abcdefghijklmnopqrstuvwxyz"

NO_MEMORY = "2: no memory"
NOT_TOML = "10: not a TOML document"
CANNOT_READ = "19: cannot read input"
CANNOT_WRITE = "20: cannot write output"
EMPTY = b"cpu 0 ran 0 back 0 routes 0\nreports 0\n"

# command lines that are refused, and the first line that says why
REFUSED_WORDS = {
    "no-word": ([], b"error: 'rcuo' requires a subcommand but one was not provided"),
    "an-unknown-word": (["nope"], b"error: unrecognized subcommand 'nope'"),
    "a-word-too-many": (["replay", "x"], b"error: unexpected argument 'x' found"),
    "a-word-that-is-no-text": ([b"\xff"], b"error: a word of the command line is no text"),
}

THREADS_4 = (REPLAYS / "threads-4" / "setup.toml").read_bytes()
THREADS_4_WRITES = (REPLAYS / "threads-4" / "stdout").read_bytes()
REPLAY = (REPLAYS / "first-run" / "setup.toml").read_bytes()
REPLAY_WRITES = (REPLAYS / "first-run" / "stdout").read_bytes()


def fault(line):
    return Run(1, b"", f"fault {line}\n".encode())


def writes(text):
    return Run(0, text, b"")


# ---- setups


def name(number):
    """Names of four letters, each another."""
    return "".join(LETTERS[number // 36**place % 36] for place in (3, 2, 1, 0))


def script(lines):
    return "processors = 1\nscript = [" + ",".join(f'"{it}"' for it in lines) + "]\n"


def deep(opening, closing, inner=""):
    return "processors = 1\nscript = " + opening * DEEP + inner + closing * DEEP + "\n"


# Setups of `replay`, each with the ways in which it may end. How deep a document may nest isn't said: one that is deeper
# than the reader goes isn't one.
SETUPS = {
    # some 1250 million routes in all versions
    "distinct-names": (script(f"call 0 0 {name(i)} 1" for i in range(50000)), [fault(NO_MEMORY)]),
    # some 400 million, with the longest names
    "long-names": (script(f"lazy 0 0 {name(i):x<16} 1" for i in range(28000)), [fault(NO_MEMORY)]),
    "as-long-as-may-be": ("processors = 1\n".ljust(MOST_BYTES, "#"), [writes(EMPTY)]),
    "too-long": ("processors = 1\n".ljust(MOST_BYTES + 1, "#"), [fault(NOT_TOML)]),
    "much-too-long": ("processors = 1\n".ljust(8 * MOST_BYTES, "#"), [fault(NOT_TOML)]),
    "a-byte-that-is-no-text": (b"processors = 1 # \xff\n", [fault(NOT_TOML)]),
    "half-a-character": (b"processors = 1\n# \xc3", [fault(NOT_TOML)]),
    "a-surrogate": (b"processors = 1\nnocbs = \"\xed\xa0\x80\"\n", [fault(NOT_TOML)]),
    "a-zero-byte": (b"processors = 1\0\n", [fault(NOT_TOML)]),
    "a-key-twice": ("processors = 1\nstride = 1\nstride = 2\n", [fault(NOT_TOML)]),
    "processors-huge": ("processors = 9223372036854775807\n", [fault("14: processors is out of range")]),
    "processors-least": ("processors = -9223372036854775808\n", [fault("14: processors is out of range")]),
    "processors-beyond": ("processors = 9223372036854775808\n", [fault(NOT_TOML)]),
    "calls-huge": ("processors = 1\ncalls = 9223372036854775807\n", [fault("14: calls is out of range")]),
    "deep-brackets": (deep("[", "]"), [fault(NOT_TOML), fault("13: wrong kind of script")]),
    "deep-brackets-left-open": (deep("[", ""), [fault(NOT_TOML)]),
    "deep-tables": (deep("{a=", "}", "1"), [fault(NOT_TOML), fault("13: wrong kind of script")]),
    "deep-tables-left-open": (deep("{a=", ""), [fault(NOT_TOML)]),
    "deep-keys": ("processors = 1\n" + "a." * DEEP + "a = 1\n", [fault(NOT_TOML), fault("11: unknown key a")]),
    "deep-table-names": ("processors = 1\n[" + "a." * DEEP + "a]\n", [fault(NOT_TOML), fault("11: unknown key a")]),
    "many-tables": ("processors = 1\n" + "".join(f"[a{i}]\n" for i in range(100000)), [fault("11: unknown key a0")]),
    "many-tables-of-an-array": ("processors = 1\n" + "[[a]]\n" * 150000, [fault("11: unknown key a")]),
    "a-long-comment": ("#" + "x" * LONG + "\nprocessors = 1\n", [writes(EMPTY)]),
    "a-long-text": ('processors = 1\nnocbs = "' + "1" * LONG + '"\n', [fault("15: bad list")]),
    "a-long-line": (script(["x" * LONG]), [fault("18: bad line 1")]),
    "a-long-route": ('processors = 1\nroutes = ["' + "x" * LONG + '"]\n', [fault("18: bad route 1")]),
    "a-long-key": ("processors = 1\n" + "x" * LONG + " = 1\n", [fault("11: unknown key " + "x" * LONG)]),
    "a-long-key-of-no-letters": ('processors = 1\n"' + " " * LONG + '" = 1\n', [fault("11: unknown key ?")]),
    "a-long-number": ("processors = " + "1" * LONG + "\n", [fault(NOT_TOML)]),
    "a-long-number-of-zeros": ("processors = 1\nlimit = 1" + "_0" * (LONG // 2) + "\n", [fault(NOT_TOML)]),
    "too-many-lines": (script(["show"] * 50001), [fault("14: script is out of range")]),
    "too-many-routes": ("processors = 1\nroutes = [" + '"a=1",' * 65 + "]\n", [fault("14: routes is out of range")]),
}

# The last line of a beginning of THREADS_4 that is a TOML document.
WHOLE_LINE = re.compile(rb'(?:\w+ = (?:\d+|"[^"]*"|\["[^"]*"\]))?')


def end_of_beginning(word, setup):
    """How a run ends on a beginning of THREADS_4."""
    if not WHOLE_LINE.fullmatch(setup.split(b"\n")[-1]):
        return fault(NOT_TOML)
    if b"processors" not in setup:
        return fault("12: missing key processors")
    if word == "threads" and b"calls" in setup:
        return writes(THREADS_4_WRITES)
    totals = b"".join(b"cpu %d ran 0 back 0 routes 0\n" % cpu for cpu in range(4))
    return writes(totals + (b"reports 0,0,0,0\n" if word == "replay" else b""))


def beginnings():
    """THREADS_4 cut after each of its bytes, with what each word writes on it."""
    for word, most in itertools.product(("threads", "replay"), range(len(THREADS_4) + 1)):
        setup = THREADS_4[:most]
        yield f"{word}_cut-after-{most}", word, setup, [end_of_beginning(word, setup)]


def orders():
    """The keys of THREADS_4 in every order."""
    for number, keys in enumerate(itertools.permutations(THREADS_4.splitlines())):
        yield f"keys-in-order-{number}", "threads", b"\n".join(keys), [writes(THREADS_4_WRITES)]


def setups():
    for it, (setup, wanted) in SETUPS.items():
        yield it, "replay", setup if isinstance(setup, bytes) else setup.encode(), wanted


# ---- runs


def run(command, setup=b"", **how):
    """The run within the time and the memory that all runs have."""
    return programs.run(command, setup, seconds=SECONDS, **{"limit": limiter(BYTES), **how})


def run_bytewise(command, setup):
    """The run where each read gives one byte at most."""
    ends = {"stdin": subprocess.PIPE, "stdout": subprocess.PIPE, "stderr": subprocess.PIPE, "preexec_fn": limiter(BYTES)}
    with subprocess.Popen(command, bufsize=0, **ends) as program:
        for byte in setup:
            program.stdin.write(bytes([byte]))
            os.sched_yield()
        try:
            stdout, stderr = program.communicate(timeout=SECONDS)
        finally:
            program.kill()
        return Run(program.returncode, stdout, stderr)


def run_of_folder(command, setup):
    """The run whose input is a folder."""
    folder = os.open(ROOT, os.O_RDONLY)
    try:
        return run(command, stdin=folder)
    finally:
        os.close(folder)


def run_of_unreadable(command, setup):
    """The run whose input is open for writing alone."""
    with open(os.devnull, "wb") as unreadable:
        return run(command, stdin=unreadable)


def run_without(descriptor, command, setup):
    """The run that has no input, or no output."""
    return run(command, setup, limit=limiter(BYTES, closed=descriptor))


def run_to_full_device(command, setup):
    with open("/dev/full", "wb") as full:
        return run(command, setup, stdout=full)


def run_to_no_reader(command, setup):
    """The run that writes to a pipe that nobody reads."""
    reader, writer = os.pipe()
    os.close(reader)
    try:
        return run(command, setup, stdout=writer)
    finally:
        os.close(writer)


def run_to_file(file_bytes, command, setup):
    """The run that writes to a file in which this many bytes have room."""
    with tempfile.TemporaryFile() as file:
        ended = run(command, setup, stdout=file, limit=limiter(BYTES, file_bytes))
        file.seek(0)
        return ended._replace(stdout=file.read())


def streams():
    """Input that comes otherwise or not, and output that can't be written: how each is run, and how it ends."""
    for word, setup, written in (("replay", REPLAY, REPLAY_WRITES), ("threads", THREADS_4, THREADS_4_WRITES)):
        ends = {
            "bytewise": (run_bytewise, writes(written)),
            "of-what-can't-be-read": (run_of_unreadable, fault(CANNOT_READ)),
            "of-a-folder": (run_of_folder, fault(CANNOT_READ)),
            "without-input": (functools.partial(run_without, 0), fault(CANNOT_READ)),
            "to-a-full-device": (run_to_full_device, fault(CANNOT_WRITE)),
            "without-output": (functools.partial(run_without, 1), fault(CANNOT_WRITE)),
            "to-no-reader": (run_to_no_reader, fault(CANNOT_WRITE)),
        }
        for most in range(len(written)):
            wanted = fault(CANNOT_WRITE)._replace(stdout=written[:most])
            ends[f"to-a-file-of-{most}"] = (functools.partial(run_to_file, most), wanted)
        for it, (way, wanted) in ends.items():
            yield f"{word}_{it}", word, setup, way, wanted


class HostileTest(ProgramTest):
    """A test whose failure shows so much of a long output as a reader can use."""

    MOST = 300

    def see(self, found, wanted):
        self.assertTrue(found in wanted, f"ended otherwise: {str(found)[: self.MOST]}\nwanted: {str(wanted)[: self.MOST]}")


class SetupTest(HostileTest):
    def check(self, word, setup, wanted):
        self.see(run([built("rcuo"), word], setup), wanted)


@one_each(setups())
class Setups(SetupTest):
    """Setups that are too long, too deep, no text, no TOML, or outside the limits."""


@one_each(beginnings())
class Beginnings(SetupTest):
    """A setup that is cut after each of its bytes."""


@one_each(orders())
class Orders(SetupTest):
    """A setup's keys in every order."""


@one_each(streams())
class Streams(HostileTest):
    """Input that can't be read, and output that can't be written."""

    def check(self, word, setup, way, wanted):
        self.see(way([built("rcuo"), word], setup), [wanted])


@one_each((it, *how) for it, how in REFUSED_WORDS.items())
class Words(HostileTest):
    """Words that are refused, before anything is read."""

    def check(self, words, line):
        ended = run_of_unreadable([built("rcuo"), *words], b"")
        self.assertEqual((ended.status, ended.stdout, ended.stderr.split(b"\n")[0]), (2, b"", line))


if __name__ == "__main__":
    unittest.main()
