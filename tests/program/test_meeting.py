"""Sees that two callbacks of `rcuo threads` run at the same time, each in a hand's thread of its own.

A callback drops its version of the routes, and so frees their names. The library meet.c, loaded before the program, has each thread
look for the other there. Where callbacks ran one after the other, none would be seen.
"""
import os
import pathlib
import shutil
import subprocess
import tempfile
import unittest

from programs import ProgramTest, Run, built, run

# Two offloaded processors in groups of their own, each with one call. The second version has a route more.
SETUP = b'processors = 2\nstride = 1\nnocbs = "0-1"\nroutes = ["meeting=1"]\ncalls = 1\n'
WRITES = b"cpu 0 ran 1 back 0 routes 1\ncpu 1 ran 1 back 0 routes 2\n"


class Meeting(ProgramTest):
    def setUp(self):
        if shutil.which("cc") is None:
            self.skipTest("the command cc, which builds meet.c, isn't on the path")
        folder = tempfile.TemporaryDirectory()
        self.addCleanup(folder.cleanup)
        self.library, self.told = (pathlib.Path(folder.name) / it for it in ("meet.so", "told"))
        source = pathlib.Path(__file__).with_name("meet.c")
        subprocess.run(["cc", "-O2", "-shared", "-fPIC", "-o", self.library, source], check=True)

    def test_two_jobs_meet(self):
        wanted = {"LD_PRELOAD": str(self.library), "MEET": "meeting", "MEET_TOLD": str(self.told)}
        ended = run([built("rcuo"), "threads"], SETUP, env={**os.environ, **wanted})
        self.assertEqual(ended, Run(0, WRITES, b""))
        self.assertTrue(self.told.exists(), "neither saw the other")
        self.assertEqual(self.told.read_bytes(), b"met\nmet\n")


if __name__ == "__main__":
    unittest.main()
