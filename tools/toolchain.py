#!/usr/bin/env python3
"""What these tools take of the toolchain beside its commands; after a change of the toolchain look here first.

    tools/toolchain.py --jobs N    in a crate's folder: proves it from nothing, as `rt ci` does, and builds it over the libraries
                                   below, which are there. Of a library it builds what a crate above can cite, its statements, and
                                   leaves the proofs out, so that a check over it has a fraction to load; and it keeps nothing
                                   for a later check of the same crate. Where the toolchain has no such build, it makes
                                   `rt lib` or `rt run` do it.
"""
import argparse
import importlib.machinery
import importlib.util
import os
import shutil
import subprocess
import sys
import tempfile

# The checker's status where it knows the words otherwise.
CALLED_WRONGLY = 2


def rtlib():
    """The module that does the work of `rt`, or None where the toolchain has none of that name."""
    file = os.path.join(os.path.dirname(os.path.realpath(shutil.which("rt"))), "rtlib.py")
    if not os.path.isfile(file):
        return None
    sys.dont_write_bytecode = True
    loader = importlib.machinery.SourceFileLoader("rtlib", file)
    made = importlib.util.module_from_spec(importlib.util.spec_from_loader("rtlib", loader))
    loader.exec_module(made)
    return made


def stamps(root, names):
    """The sums by which the toolchain knows the built libraries of these crates again; none where it has no such sums."""
    made = rtlib()
    return {it.name: it.stamp() for it in made.crates_below(str(root)) if it.name in names} if made else {}


def not_laid_out(folder):
    """What `rt fmt` would change in a crate's folder, in the words of the toolchain; nothing where it has no such look."""
    made, said = rtlib(), tempfile.TemporaryFile("w+", errors="replace")
    if not hasattr(made, "fmt"):
        return ""
    with said:
        is_fine = made.fmt(str(folder), "--check", said) == 0
        said.seek(0)
        return "" if is_fine else said.read()


def build_from_nothing(made, jobs):
    """Proves and builds the crate in the current folder by the toolchain's own module. Returns the exit status."""
    made.guarded()
    # (by these words a check keeps its work, and then no statements can be built)
    made.KEPT = []
    here, words = os.getcwd(), ["--jobs", str(jobs)]
    os.makedirs("out", exist_ok=True)
    crate = made.Crate(here, made.root_above(here), {})
    if crate.is_program:
        return crate.run(words, [])
    if crate.is_static:
        return crate.build_static(words)
    return crate.build_rlib([*words, "--statements"], anew=False)


def build(jobs):
    """Proves and builds the crate in the current folder. Returns the exit status."""
    made = rtlib()
    if made and "--statements" in made.help_of("build"):
        try:
            status = build_from_nothing(made, jobs)
        except (AttributeError, IndexError, TypeError):
            status = CALLED_WRONGLY
        if status != CALLED_WRONGLY:
            return status
    verb = "run" if os.path.isfile("src/main.rt") else "lib"
    return subprocess.run(["rt", verb, "--jobs", str(jobs)]).returncode


if __name__ == "__main__":
    ask = argparse.ArgumentParser(description=__doc__, formatter_class=argparse.RawDescriptionHelpFormatter)
    ask.add_argument("--jobs", type=int, default=1)
    sys.exit(build(ask.parse_args().jobs))
