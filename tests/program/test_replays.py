"""Runs each folder of tests/replays/ and each example with rcuo, and each that is a plain `replay` with rcu_world_program, which runs
a script over the deterministic core and must write the same; and compares to the byte.

Each script that is replayed is then cut after each of its commands: as it is, with `lazy` in place of each `call`, and of
each but the first. On each of these setups both programs must write the same, and the totals must say of each processor that
so many callbacks ran or were handed back as were accepted. The cuts of one script are one test.
"""
import itertools
import re
import unittest

from programs import ProgramTest, built, is_whole, one_each, run
from replays import is_plain, replays

SCRIPT = re.compile(rb"^script = \[(.*?)\]", re.S | re.M)
ITEM = re.compile(rb'"([^"]*)"')
ALL = replays()
PLAIN = [it for it in ALL if is_plain(it)]


def with_lazy(commands, kept):
    """The commands with `lazy` in place of `call`, but in the first so many calls."""
    calls = itertools.count()
    return [it.replace(b"call", b"lazy", 1) if it.startswith(b"call ") and next(calls) >= kept else it for it in commands]


def cuts(setup):
    """The setups whose scripts are the beginnings of this one's, as it is and with lazy calls: each once."""
    script = SCRIPT.search(setup)
    commands = ITEM.findall(script.group(1)) if script else []
    forms = [with_lazy(commands, kept) for kept in (len(commands), 1, 0)] if commands else []
    scripts = [b", ".join(b'"' + it + b'"' for it in form[:many]) for form in forms for many in range(len(form) + 1)]
    return list(dict.fromkeys(setup[: script.start(1)] + it + setup[script.end(1) :] for it in scripts))


@one_each((it.name, it) for it in ALL)
class Written(ProgramTest):
    """What rcuo writes."""

    def check(self, replay):
        self.assertEqual(run([built("rcuo"), *replay.words], replay.setup), replay.wanted)


@one_each((it.name, it) for it in PLAIN)
class WrittenByTheCore(ProgramTest):
    """What rcu_world_program writes."""

    def check(self, replay):
        self.assertEqual(run([built("rcu_world_program")], replay.setup), replay.wanted)


@one_each((it.name, beginnings) for it in PLAIN if (beginnings := cuts(it.setup)))
class Cut(ProgramTest):
    """What both write on a script that is cut after each of its commands."""

    def check(self, setups):
        for setup in setups:
            parts, core = run([built("rcuo"), "replay"], setup), run([built("rcu_world_program")], setup)
            self.assertEqual(parts, core, f"the parts and the core differ on\n{setup.decode()}")
            self.assertTrue(is_whole(parts.stdout), f"accepted callbacks neither ran nor were handed back on\n{setup.decode()}")


if __name__ == "__main__":
    unittest.main()
