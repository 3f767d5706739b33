#!/usr/bin/env python3
"""Programs of liburcu over liburcu and over rcuo: each of liburcu's examples, as liburcu-dev installs them, and
tests/c/liburcu.c and liburcu_helpers.c. Both print the same and end with the same status.

    tests/c/liburcu.py [--library FILE]     FILE: librcuo.a (out/librcuo.a), beside which is librcuo.so.0

tests/c/liburcu.c is built with its one include changed too, and with _LGPL_SOURCE. And it is built by liburcu's own headers, in
which no reader is inlined, and linked with librcuo-urcu-qsbr.so.0 in place of liburcu-qsbr.so.8; and the program that was linked with
that one runs with ours loaded before it. The examples are of several flavours, whose names are here those of the QSBR flavour.
Lines of a hash table, which say that their order is random, are compared as sets of words."""
import argparse
import concurrent.futures
import os
import pathlib
import signal
import subprocess
import sys
import tempfile

ROOT = pathlib.Path(__file__).resolve().parents[2]
EXAMPLES = pathlib.Path("/usr/share/doc/liburcu-dev/examples")
FLAVOURS = ("memb", "mb", "signal", "bp")
NAMES = "read_lock read_unlock register_thread unregister_thread call_rcu synchronize_rcu barrier flavor".split()
THEIRS = [f"-lurcu-{flavour}" for flavour in (*FLAVOURS, "qsbr")]
RANDOM = ("hash table content", "removing all nodes")
# Words of tests/c/liburcu_misuse.c, and what is said of each before the process aborts.
NOT_REGISTERED = "there is no such processor"
SAID = {
    "unregister": f"rcu_unregister_thread: {NOT_REGISTERED}",
    "report": f"rcu_quiescent_state: {NOT_REGISTERED}",
    "offline": f"rcu_thread_offline: {NOT_REGISTERED}",
    "online": f"rcu_thread_online: {NOT_REGISTERED}",
    "twice": "rcu_register_thread: a slot has a part already",
    "callback": "rcu_register_thread: a slot has a part already",
    "barrier": "rcu_barrier: a callback was begun and isn't finished",
}
OURS = "librcuo-urcu-qsbr.so.0"
# Words of tests/c/liburcu.c: 3,000 threads, a thousand of them at once, and a callback that waits for 60,000 grace periods.
STRESS = ["3000", "10", "1000", "60000"]
BESIDE = ["-lurcu-cds", "-lurcu-common", "-pthread"]


def write_flavours(folder):
    """Headers of the other flavours, whose names are those of the QSBR flavour."""
    (folder / "urcu").mkdir()
    for flavour in FLAVOURS:
        names = [f"#define urcu_{flavour}_{name} urcu_qsbr_{name}" for name in NAMES]
        text = ["#define URCU_API_MAP", "#include <urcu/urcu-qsbr.h>", *names, ""]
        (folder / f"urcu/urcu-{flavour}.h").write_text("\n".join(text), encoding="utf-8")


def build(source, program, flags):
    subprocess.run(["cc", "-std=gnu11", "-O1", "-w", *map(str, flags[0]), source, "-o", program, *map(str, flags[1])], check=True)


def output(program, *words, **variables):
    """The lines that a program prints, those in random order as sorted words, and how it ends."""
    ended = subprocess.run([program, *words], capture_output=True, text=True, timeout=90, env={**os.environ, **variables})
    lines = (ended.stdout + ended.stderr).splitlines()
    return [" ".join(sorted(line.split())) if line.startswith(RANDOM) else line for line in lines], ended.returncode


def compare(source, folder, ours):
    programs = [folder / f"{source.stem}.{which}" for which in ("liburcu", "rcuo")]
    build(source, programs[0], ([], [*THEIRS, *BESIDE]))
    build(source, programs[1], ours)
    return [output(program) for program in programs]


def bindings(program, **variables):
    """From which library a program gets its call_rcu, as the loader says, and whether that hash table is liburcu's shared one."""
    said = subprocess.run([program], capture_output=True, text=True, timeout=30, env={**os.environ, **variables, "LD_DEBUG": "bindings"})
    bound = [line for line in said.stderr.splitlines() if f"binding file {program} " in line]
    return any(OURS in line and "`urcu_qsbr_call_rcu'" in line for line in bound) and any("liburcu-cds.so" in line for line in bound)


def shared_differ(source, folder, library, expected):
    """How a program of liburcu's own headers differs over our shared library: linked with it, and with it loaded before."""
    found = {"LD_LIBRARY_PATH": f"{folder}:{library.parent}"}
    build(source, folder / "linked", ([], [folder / OURS, f"-Wl,-rpath-link={folder}:{library.parent}", *BESIDE]))
    build(source, folder / "before", ([], ["-lurcu-qsbr", *BESIDE]))
    ways = {"linked": found, "before": {**found, "LD_PRELOAD": folder / OURS}}
    return [way for way, variables in ways.items()
            if output(folder / way, **variables) != expected or not bindings(folder / way, **variables)]


def misuse_differs(folder, ours):
    """Of which words something else is said than is meant to be."""
    build(ROOT / "tests/c/liburcu_misuse.c", folder / "misuse", ours)
    return [word for word, said in SAID.items() if output(folder / "misuse", word) != ([f"rcuo: {said}"], -signal.SIGABRT)]


def main():
    parser = argparse.ArgumentParser()
    parser.add_argument("--library", default=ROOT / "out/librcuo.a")
    library = pathlib.Path(parser.parse_args().library).resolve()
    sources = [*sorted(EXAMPLES.rglob("*.c")), ROOT / "tests/c/liburcu_helpers.c", ROOT / "tests/c/liburcu.c"]
    same = 0
    with tempfile.TemporaryDirectory() as name, concurrent.futures.ThreadPoolExecutor() as threads:
        folder = pathlib.Path(name)
        write_flavours(folder)
        shared = library.with_name("librcuo.so.0")
        subprocess.run(["make", "-s", "-C", ROOT / "lib", f"OUT={folder}", f"LIBRARY={shared}", "all"], check=True)
        front = [f"-I{it}" for it in (folder, ROOT / "include/rcuo/liburcu", ROOT / "include")]
        archives = [folder / "librcuo-urcu-qsbr.a", folder / "librcuo-runtime.a", library, *BESIDE]
        runs = [threads.submit(compare, source, folder, (front, archives)) for source in sources]
        changed = folder / "changed.c"
        changed.write_text(sources[-1].read_text(encoding="utf-8").replace("<urcu-qsbr.h>", "<rcuo/urcu-qsbr.h>"), encoding="utf-8")
        build(changed, folder / "changed", (["-D_LGPL_SOURCE", f"-I{ROOT}/include"], archives))
        if output(folder / "changed") != runs[-1].result()[1]:
            print("the program with its include changed differs", file=sys.stderr)
            same -= 1
        stressed = [output(folder / f"liburcu.{which}", *STRESS) for which in ("liburcu", "rcuo")]
        if stressed[0] != stressed[1]:
            print(f"the same with many threads: over liburcu {stressed[0]}, over rcuo {stressed[1]}", file=sys.stderr)
            same -= 1
        for word in misuse_differs(folder, (front, archives)):
            print(f"misuse isn't answered: {word}", file=sys.stderr)
            same -= 1
        for way in shared_differ(sources[-1], folder, library, runs[-1].result()[0]):
            print(f"the program over the shared library differs: {way}", file=sys.stderr)
            same -= 1
        for source, run in zip(sources, runs):
            theirs, ours = run.result()
            same += theirs == ours
            if theirs != ours:
                print(f"{source.name}: over liburcu {theirs}, over rcuo {ours}", file=sys.stderr)
    print(f"{same} programs the same, {len(sources) - same} not")
    return same != len(sources) or len(sources) < 2


sys.exit(main())
