"""Runs check_torture: 10^6 callbacks by random steps of all parts in threads, in four runs, one for each way in which a run ends;
some dozens of short runs, whose histories are checked by the law; and then a run with `--flaws`, in which each check is handed a
case that it must refuse.

Random steps have passed where the program ends with status 0, its line says `errors 0`, as many callbacks ran or came back as
were accepted, and these are as many as were wanted; each counter has to say that something was done, and some barrier has to
pass before the end of a run. The cases have passed where the program ends with status 1 and names each flaw once.
"""
import re
import unittest

import programs
from programs import ProgramTest, built

# (so long they may take on a machine that is busy)
SECONDS = 600
CALLBACKS, RUNS = 250000, 4
WORDS = ["--callbacks", str(CALLBACKS), "--runs", str(RUNS)]
# Short runs, of which most are short enough for the law to be checked on their history.
SHORT = 48
# What has to be done in the long runs, of all that the line counts.
DONE = ("lazy", "ran", "back", "sections", "current", "removed", "barriers", "tickets", "passed", "drained", "switches", "reports", "leaves")
FLAWS = (
    "a callback began while another of its processor ran",
    "a callback ran out of its order",
    "a callback ran of a version that was not removed, or twice",
    "a read section saw a version whose callback had run",
    "a barrier passed before an earlier callback had run",
    "a barrier left out a callback that had been accepted",
    "a ticket was not the next of its processor",
    "what ran and was handed back was not what was accepted",
    "records were not numbered 0, 1, 2, ..",
    "a callback ran before its grace period had ended",
    "a receipt was not that of its key",
    "a callback was handed back after a barrier with all tickets",
    "a shut counted otherwise than was accepted",
    "as many versions were not freed as callbacks ran",
    "fewer reports were counted than a processor was told of",
    "a history in the order of numbers did not agree with the answer",
    "a history in the order of numbers was not closed under the law",
)


tearDownModule = programs.tell_notes


def counters_of(line):
    """The counters of a line, by name."""
    return {name: int(many) for name, many in re.findall(r"(\w+) (\d+)", line)}


class Torture(ProgramTest):
    def run_to_end(self, words):
        """How the program ends, with its line of counters as a note."""
        ended = programs.run([built("check_torture"), *words], seconds=SECONDS)
        programs.note(ended.stdout.decode().rstrip("\n"))
        return ended

    def test_random_steps(self):
        ended = self.run_to_end(WORDS)
        self.assertEqual((ended.status, ended.stderr), (0, b""))
        line = ended.stdout.decode()
        self.assertTrue(line.endswith(" errors 0\n"), line)
        counted = counters_of(line)
        self.assertEqual(counted["ran"] + counted["back"], counted["callbacks"], "as many ran or came back as were accepted")
        self.assertGreaterEqual(counted["callbacks"], CALLBACKS * RUNS, "all that were wanted were accepted")
        self.assertEqual([], [it for it in DONE if not counted[it]], "these were never done")
        self.assertGreater(counted["passed"], counted["drained"], "a barrier passed before the end of a run")

    def test_short_runs(self):
        ended = self.run_to_end(["--callbacks", "150", "--runs", str(SHORT)])
        self.assertEqual((ended.status, ended.stderr), (0, b""))
        line = ended.stdout.decode()
        self.assertTrue(line.endswith(" errors 0\n"), line)
        counted = counters_of(line)
        self.assertGreater(counted["histories"], SHORT // 2, "the law was checked on the histories of most runs")
        self.assertGreater(counted["passed"], 0, "a barrier passed")

    def test_flaws(self):
        ended = self.run_to_end(["--flaws"])
        self.assertEqual(ended.status, 1)
        self.assertEqual(ended.stderr.decode().splitlines(), [f"error: {flaw} (1 times)" for flaw in FLAWS])
        self.assertTrue(ended.stdout.decode().endswith(f" errors {len(FLAWS)}\n"))


if __name__ == "__main__":
    unittest.main()
