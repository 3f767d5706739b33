"""Runs programs with each of their allocations refused in turn, one a run, until a run has none.

check_memory plays a scenario for each crate of docs/specification/surface.md, "After want of memory", and checks itself what
stands after each call. A scenario passes where each of its runs says so, and where each growth of its list was refused once
at least. With `--flaws` it hands each check steps that it must refuse, and has to say of each what is wrong with it.

rcuo and rcu_world_program run setups: such a run ends with status 0, or with 'fault 2: no memory' and status 1 (in threads also with
'fault 21: cannot run threads', where a thread can't be made). It writes whole lines of docs/specification/tables.md, the same
as with ample memory up to one that a refused growth can change; and where it ends well, so many callbacks ran or were handed
back as were accepted. Of a setup of tests/refusals/ some run has to write what stands beside it.

example_readers runs workers in threads: such a run writes what it does with ample memory and ends with status 0, or names a fault
of its own and ends with status 1.
"""
import itertools
import os
import pathlib
import re
import shutil
import subprocess
import tempfile
import unittest

import programs
from programs import REFUSALS, REPLAYS, TOTALS, ProgramTest, Run, built, is_whole, one_each

# The growths that each scenario of check_memory has to be refused, and no others: a call of the parts that can't want memory
# is never refused. In the core a `Give` that finds no room changes nothing, so its put and its batch are one.
TURNS = {
    *("call_rcu", "call_rcu_lazy", "the put of call_rcu", "the put of tick", "the pour of tick", "a record of tick"),
    *("the join of Group::turn", "the batch of Group::turn", "a record of Hand::turn"),
}
SCENARIOS = {
    "lists": {"Segments::reserve", "take_batch", "pour", "Bypass::reserve"},
    "lanes": {"lane", "put"},
    "board": {"open_board"},
    "world": {*TURNS, "World::new", "quiescent", "barrier", "poll", "shut", "World::run", "World::close"},
    "parts": {*TURNS, "open", "the put of Group::turn", "close"},
    "setup": {"read_setup", "script_line"},
    "status": {"line", "totals"},
}
# What the checks of check_memory say of the steps that they must refuse.
FLAWS = (
    "quiescent: a refused call changed a list",
    "call_rcu: another job came back",
    "call_rcu: a refused call changed a list",
    "call_rcu: another ticket",
    "call_rcu: another count",
    "call_rcu: the callback isn't in the own list",
    "call_rcu_lazy: the callback isn't in the bypass list",
    "a record of tick: a callback is lost",
    "a record of tick: the callback isn't first",
    "a record of tick: no other part claims",
    "the put of tick: a tick changed another list",
    "a record of tick: the callback isn't first",
    "the put of tick: the batch isn't the bypass list again",
    "the put of tick: what was poured isn't the bypass list",
    "the pour of tick: something moved",
    "the pour of tick: the switch isn't heeded",
    "the pour of tick: the switch isn't heeded",
    "the put of Group::turn: a callback is lost",
    "the put of Group::turn: a turn changed another list",
    "a record of Hand::turn: a turn changed another list",
    "poll: another answer",
    "driver_turn: the call changed a list",
    "quiescent: refused again",
    "quiescent: the next turn doesn't go on where it stopped",
    "a record of Hand::turn: the next turn doesn't go on where it stopped",
    "the put of Group::turn: the next turn doesn't go on where it stopped",
)
NO_WORDS = b"the words can't be had, or nothing can be written\n"

SETUPS = (
    *("two-generations", "turn-word-order", "switch-and-pour", "lazy-urged", "lazy-deoffload", "bypass-17", "barrier-one-call"),
    "shut-twice",
)
THREADS = ("threads-4",)
NO_MEMORY = b"fault 2: no memory\n"
NO_THREADS = b"fault 21: cannot run threads\n"
# The faults of example_readers: no memory for itself or for a run's lists, or for a thread; a worker that gave up since it had none.
WORKERS_FAULTS = {b"Error: no memory\n", b"Error: no thread for each part\n", b"Error: a worker gave up\n"}

# The lines of tables.md, "Script commands and what they print" and "Totals".
LINE = re.compile(
    rb"(?:call|lazy) \d+ (?:number \d+|refused [234])|quiet \d+ (?:counted \d+|nothing)|(?:tick|hand) \d+ ran \d+"
    rb"|driver (?:idle|started \d+|ended \d+|waits|spent)|group \d+ took \d+ gave \d+|(?:de)?offload \d+ asked"
    rb"|barrier (?:opened|passed|waits|none)|shut \d+(?:,\d+)*|reports \d+(?:,\d+)*|cpu \d+ ran \d+ back \d+ routes \d+"
    rb"|cpu \d+ (?:Local|Offloading|Offloaded|Deoffloading) accepted \d+ bypass \d+ done \d+ wait \d+@\d+ ready \d+@\d+ next \d+"
    rb"|group of \d+ done \d+ wait \d+@\d+ ready \d+@\d+ next \d+"
)
# The lines that can be the first that a refused growth changes. (A join that is refused shows in no line of its turn.)
CHANGED = re.compile(rb"(?:call|lazy) \d+ refused 2|(?:tick|hand|group) |driver (?:idle|waits)|cpu \d+ ")


class Refuser:
    """Runs a program with one of its allocations refused, or with some in a row, by refuse.c."""

    def __init__(self, folder):
        self.library = pathlib.Path(folder) / "refuse.so"
        self.told = pathlib.Path(folder) / "told"
        source = pathlib.Path(__file__).with_name("refuse.c")
        subprocess.run(["cc", "-O2", "-shared", "-fPIC", "-o", self.library, source], check=True)

    def run(self, command, setup=b"", number=0, many=1):
        """The run with this allocation refused, and as many in all, none where it is 0, and whether it came so far."""
        self.told.unlink(missing_ok=True)
        wanted = {"REFUSE": str(number), "REFUSE_MANY": str(many), "REFUSE_TOLD": str(self.told)}
        environment = {**os.environ, "LD_PRELOAD": str(self.library), **wanted}
        return programs.run(command, setup, env=environment), self.told.exists()

    def runs(self, command, setup=b"", many=1):
        """The runs with the first allocation refused, with the second, and so on, each with its number."""
        for number in itertools.count(1):
            run, refused = self.run(command, setup, number, many)
            if not refused:
                return
            yield number, run


REFUSER = None


def setUpModule():
    global REFUSER
    if shutil.which("cc") is None:
        raise unittest.SkipTest("the command cc, which builds refuse.c, isn't on the path")
    folder = tempfile.TemporaryDirectory()
    unittest.addModuleCleanup(folder.cleanup)
    REFUSER = Refuser(folder.name)


tearDownModule = programs.tell_notes


class GrowthTest(ProgramTest):
    """A test that says at its end how many allocations were refused, each once."""

    def see(self, faults, many, what="allocations, each refused once"):
        self.assertEqual([], faults)
        self.assertTrue(many, "nothing was refused")
        programs.note(f"{self._testMethodName.removeprefix('test_')}: {many} {what}")


# ---- the scenarios of check_memory


def growth_of(scenario, run):
    """The growth that a run says was refused, '' where it was another, and None where the run is at fault."""
    if run == Run(1, b"", NO_WORDS):
        return ""
    said = re.fullmatch(rf"{scenario}: (?:refused at (.*)|nothing refused)\n".encode(), run.stdout)
    if run.status != 0 or run.stderr or not said:
        return None
    name = (said.group(1) or b"").decode()
    return "" if name == "a list of its own" else name


@one_each((it, it, wanted) for it, wanted in SCENARIOS.items())
class Scenarios(GrowthTest):
    """The calls that may want memory, crate by crate."""

    def check(self, scenario, wanted):
        command = [built("check_memory"), scenario]
        ample, _ = REFUSER.run(command)
        self.assertEqual(ample, Run(0, f"{scenario}: nothing refused\n".encode(), b""), "with ample memory")
        runs = list(REFUSER.runs(command))
        growths = [growth_of(scenario, run) for _, run in runs]
        faults = [f"allocation {number}: {run}" for (number, run), growth in zip(runs, growths) if growth is None]
        found = set(growths) - {None, ""}
        if wanted - found:
            # (a list that had more places asks for as many at once, and where there is no memory for as few as serve)
            found |= {growth_of(scenario, run) for _, run in REFUSER.runs(command, many=2)} - {None, ""}
        faults += [f"never refused: {it}" for it in sorted(wanted - found)]
        faults += [f"refused, and it can't be: {it}" for it in sorted(found - wanted)]
        self.see(faults, len(runs))


class Flaws(GrowthTest):
    """The checks of check_memory, each handed steps that it must refuse."""

    def test_flaws(self):
        ended = programs.run([built("check_memory"), "--flaws"])
        said = ended.stdout.decode().splitlines()
        faults = [f"not {wanted}, but {it}" for wanted, it in itertools.zip_longest(FLAWS, said) if wanted != it]
        self.assertEqual(ended.status, 0)
        self.see(faults, len(FLAWS), "steps, each refused")


# ---- the programs


def first_change(ample, found):
    """The first line that is another than with ample memory, if there is one."""
    return next((line for line, other in zip(found, ample) if line != other), None)


def fault_of(ample, run, threads):
    """What is at fault in a run, by the one with ample memory, if anything is."""
    ends = {(0, b""), (1, NO_MEMORY)} | ({(1, NO_THREADS)} if threads else set())
    if (run.status, run.stderr) not in ends:
        return "ended otherwise"
    *lines, rest = run.stdout.split(b"\n")
    if rest or not all(LINE.fullmatch(it) for it in lines):
        return "not lines of the program"
    change = first_change(ample.stdout.split(b"\n"), lines)
    if change is not None and not CHANGED.match(change):
        return f"a line that no refused growth changes: {change}"
    if run.status == 0 and not threads and not is_whole(run.stdout):
        return "accepted callbacks that neither ran nor were handed back"
    if run.status == 0 and len(TOTALS.findall(run.stdout)) != len(TOTALS.findall(ample.stdout)):
        return "not the totals of each processor"
    return None


def setups():
    """The setups, with the program and the word that each is run with, and what some run must write."""
    for folder in [*(REPLAYS / it for it in SETUPS), *sorted(REFUSALS.iterdir())]:
        wanted = (folder / "stdout").read_bytes() if folder.parent == REFUSALS else None
        yield f"parts_{folder.name}", folder, "rcuo", ["replay"], wanted
        yield f"core_{folder.name}", folder, "rcu_world_program", [], wanted
    for it in THREADS:
        yield it, REPLAYS / it, "rcuo", ["threads"], None


@one_each(setups())
class Programs(GrowthTest):
    """Whole runs of setups."""

    def check(self, folder, program, words, wanted):
        command, setup = [built(program), *words], (folder / "setup.toml").read_bytes()
        ample, _ = REFUSER.run(command, setup)
        runs = list(REFUSER.runs(command, setup))
        found = ((number, run, fault_of(ample, run, "threads" in words)) for number, run in runs)
        faults = [f"allocation {number}: {fault}: {run}" for number, run, fault in found if fault]
        if wanted is not None and all(run != Run(0, wanted, b"") for _, run in runs):
            faults.append("no run writes what is wanted")
        self.see(faults, len(runs))


class Workers(GrowthTest):
    """Workers in threads."""

    def test_workers(self):
        command = [built("example_readers")]
        ample, _ = REFUSER.run(command)
        self.assertEqual((ample.status, ample.stderr), (0, b""), "with ample memory")
        self.assertTrue(ample.stdout, "with ample memory")
        runs = list(REFUSER.runs(command))
        self.see([f"allocation {number}: {run}" for number, run in runs if not is_named(ample, run)], len(runs))


def is_named(ample, run):
    """Whether a run of workers wrote what it does with ample memory, or names a fault of its own."""
    names = run.status == 1 and (run.stderr in WORKERS_FAULTS or run.stderr == NO_WORDS)
    return run == ample or names and ample.stdout.startswith(run.stdout)


if __name__ == "__main__":
    unittest.main()
