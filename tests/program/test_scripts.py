"""Random scripts by rcuo and by rcu_world_program, which must write the same; and the totals must say of each processor that so many
callbacks ran or were handed back as were accepted. A test is one seed, so that a script that failed comes again.

The moment rises whenever a processor is asked to leave, as time passes while one is away.
"""
import random
import unittest

from programs import ProgramTest, built, is_whole, one_each, run

SEEDS = 8
SCRIPTS = 40
MOST_PROCESSORS = 4
MOST_COMMANDS = 80


def command(chance, processors, moment):
    """A command of any kind, with those that move callbacks on more often than others."""
    place = chance.randrange(processors)
    return chance.choice(
        [
            *(f"call {place} {moment} a 1", f"call {place} {moment} b 2", f"lazy {place} {moment} c 3"),
            *[f"quiet {place}", f"tick {place} {moment}", "driver", f"hand {place}", f"leave {place}", f"return {place}"] * 2,
            *(f"group {place}", f"offload {place}", f"deoffload {place}", "barrier", "poll", "show"),
        ]
    )


def commands(chance, processors):
    """Some commands, at moments that don't fall; one in ten scripts is shut before its last quarter."""
    many, moment, all_of = chance.randint(5, MOST_COMMANDS), 0, []
    shut = many * 3 // 4 if chance.random() < 0.1 else None
    for at in range(many):
        all_of.append("shut" if at == shut else command(chance, processors, moment))
        moment += 1 if all_of[-1].startswith("leave") else chance.choice((0, 0, 1, 7))
    return all_of


def setup(chance):
    """A setup with a random script."""
    processors = chance.randint(1, MOST_PROCESSORS)
    offloadable = ",".join(str(it) for it in range(processors) if chance.random() < 0.5)
    lines = ",\n".join(f'  "{it}"' for it in commands(chance, processors))
    blimit, qhimark, stride = chance.choice((1, 2, 10)), chance.choice((1, 3, 10000)), chance.randint(1, MOST_PROCESSORS)
    keys = f"processors = {processors}\nnocbs = \"{offloadable}\"\nstride = {stride}\nblimit = {blimit}\nqhimark = {qhimark}\n"
    return f"{keys}script = [\n{lines}\n]\n".encode()


@one_each((f"seed_{it}", it) for it in range(SEEDS))
class Random(ProgramTest):
    def check(self, seed):
        chance = random.Random(seed)
        for _ in range(SCRIPTS):
            given = setup(chance)
            parts, core = run([built("rcuo"), "replay"], given), run([built("rcu_world_program")], given)
            self.assertEqual(parts, core, f"the parts and the core differ on\n{given.decode()}")
            self.assertEqual(parts.status, 0, given.decode())
            self.assertTrue(is_whole(parts.stdout), f"accepted callbacks neither ran nor were handed back on\n{given.decode()}")


if __name__ == "__main__":
    unittest.main()
