"""Tries each snippet of tests/must-not-compile/: the borrow checker must refuse it.

A snippet calls a processor while a `Reading` of it lives (docs/specification/rows.md, "reading-bars-calls"). All are
added to a copy of rcu_parts, each as a module of its tests, and that copy is read without a proof. (They aren't named
.rt, since `rt ci` wants every such file in a crate.) To see that nothing else of them is refused, each call is then
moved behind the end of the reading, and that must compile.
"""
import pathlib
import re
import shutil
import subprocess
import tempfile
import unittest

from programs import ROOT, TESTS, ProgramTest, one_each

SNIPPETS = {it.stem: it.read_text("utf-8") for it in sorted((TESTS / "must-not-compile/reading-bars-calls").glob("*.snippet"))}
CRATE = "rcu_parts"
SECONDS = 600
# what the borrow checker says of a `&mut` of what is shared
REFUSAL = "[borrow-e0502]"
END = "    drop(reading);\n"
# a crate without a test isn't read with its tests
ANY_TEST = "\n#[test]\nfn nothing() {}\n"


def copy_to(root):
    """Copies the sources of all crates, since `rt` builds those that rcu_parts stands on."""
    for name in ("crates.txt", "HANDLES"):
        shutil.copy(ROOT / name, root / name)
    for crate in (ROOT / "crates").iterdir():
        for part in ("src", "specs"):
            if (crate / part).is_dir():
                shutil.copytree(crate / part, root / "crates" / crate.name / part)


def tried(modules):
    """What `rt` says of a copy with these modules, each a name and its text, as its only tests: its status, and its text."""
    with tempfile.TemporaryDirectory() as folder:
        root = pathlib.Path(folder)
        copy_to(root)
        source = root / "crates" / CRATE / "src"
        library = source / "lib.rt"
        kept = re.sub(r"#\[cfg\(test\)\]\nmod (\w+);\n", lambda found: forget(source, found.group(1)), library.read_text("utf-8"))
        for name, text in modules:
            (source / f"{name}.rt").write_text(text + ANY_TEST, "utf-8")
            kept += f"#[cfg(test)]\nmod {name};\n"
        library.write_text(kept, "utf-8")
        command = ["rt", "try", "--test"]
        run = subprocess.run(command, cwd=source.parent, capture_output=True, text=True, timeout=SECONDS)
        return run.returncode, run.stdout + run.stderr


def forget(source, module):
    """Drops a module of tests from the copy."""
    (source / f"{module}.rt").unlink()
    return ""


def ended_first(text):
    """The snippet with its call behind the end of the reading."""
    before, call, after = re.fullmatch(r"(?s)(.*\n)(    processor\.[^\n]*\n)" + re.escape(END) + "(.*)", text).groups()
    return before + END + call + after


def setUpModule():
    if shutil.which("rt") is None:
        raise unittest.SkipTest("the command rt of the Rattle toolchain isn't on the path")


@one_each((it, it) for it in SNIPPETS)
class WhileReading(ProgramTest):
    """Each call while the reading lives: the one error in its module is the borrow checker's refusal of that call."""

    @classmethod
    def setUpClass(cls):
        cls.status, cls.said = tried([(f"misuse_{name}", text) for name, text in SNIPPETS.items()])

    def check(self, name):
        self.assertNotEqual(self.status, 0)
        errors = [line for line in self.said.splitlines() if f"/misuse_{name}.rt:" in line and "error" in line]
        self.assertEqual(len(errors), 1, self.said)
        self.assertIn(REFUSAL, errors[0])


class AfterReading(ProgramTest):
    """The same calls behind the end of the reading."""

    def test_all_compile(self):
        status, said = tried([(f"use_{name}", ended_first(text)) for name, text in SNIPPETS.items()])
        self.assertEqual(status, 0, said)


if __name__ == "__main__":
    unittest.main()
