"""What tools/documents refuses of a page, and what tools/tables.py makes of crates, edits and replays, on small texts."""
import collections
import importlib.machinery
import importlib.util
import pathlib
import tempfile
import unittest

import programs  # (it finds tools/)
import crates
import tables


def documents():
    """The module of tools/documents, which is a program."""
    loader = importlib.machinery.SourceFileLoader("documents", str(crates.ROOT / "tools/documents"))
    made = importlib.util.module_from_spec(importlib.util.spec_from_loader("documents", loader))
    loader.exec_module(made)
    return made


# A crate, as tools/crates.py has one.
Crate = collections.namedtuple("Crate", "name folder is_program below")


def crate_of(folder, name, files):
    """A crate with these files."""
    for place, text in files.items():
        file = pathlib.Path(folder) / name / place
        file.parent.mkdir(parents=True, exist_ok=True)
        file.write_text(text, encoding="utf-8")
    return Crate(name, pathlib.Path(folder) / name, is_program=False, below=())


class Shapes(unittest.TestCase):
    """`bad_shape`: each fault is named, and a page without one has none."""

    def faults(self, text, place="docs/speed.md"):
        return [it for it in documents().bad_shape(place, text) if it]

    def test_a_page_without_a_fault(self):
        self.assertEqual(self.faults("# Speed\n\n| a | b |\n|---|---|\n| short | `code` |\n"), [])

    def test_too_many_lines(self):
        self.assertIn("lines", self.faults("a line\n" * 200)[0])

    def test_a_page_that_no_limit_names(self):
        self.assertIn("LINES has no such page", self.faults("a line\n", "docs/diary.md")[0])

    def test_a_long_line(self):
        self.assertIn("too long", self.faults("word " * 90)[0])

    def test_a_long_cell(self):
        self.assertIn("too long", self.faults(f"| short | {'x' * 121} |\n")[0])
        self.assertEqual(self.faults(f"| short | {'x' * 120} |\n"), [])

    def test_words_of_a_notebook(self):
        for word in ("2026-01-02", "since then", "the run before", "was timed", "Tried", "rattle-kit-1"):
            self.assertIn("notebook", self.faults(f"It is {word} here.\n")[0])

    def test_code_is_no_prose(self):
        self.assertEqual(self.faults("```\n" + "x" * 500 + " since then\n```\n"), [])


class Proved(unittest.TestCase):
    """What a root file says is proved, and the words that it may say."""

    ROOT_FILE = "//! A crate.\n//!\n//! # What is proved\n//!\n//! - First, of\n//!   two lines.\n//! - By `call` (`ok`).\n#![tactic(auto)]\n"

    def test_sentences_are_lines(self):
        with tempfile.TemporaryDirectory() as folder:
            crate = crate_of(folder, "low", {"src/lib.rt": self.ROOT_FILE})
            self.assertEqual(tables.proved_of(crate), ["First, of two lines.", "By `call` (`ok`)."])

    def test_a_word_that_the_crate_lacks_is_named(self):
        made = documents()
        with tempfile.TemporaryDirectory() as folder:
            crate = crate_of(folder, "low", {"src/lib.rt": self.ROOT_FILE + "pub fn call() {}\n"})
            said = [it for it in made.bad_proved({"low": crate}, set()) if it]
        self.assertEqual(said, ["low says `ok`, which it doesn't have"])


class Edits(unittest.TestCase):
    """What an edit says of itself."""

    def said(self, text):
        with tempfile.TemporaryDirectory(dir=crates.ROOT / "tests") as folder:
            file = pathlib.Path(folder) / "one.edit"
            file.write_text(text, encoding="utf-8")
            return tables.said_by(file)

    def test_its_lines(self):
        said = self.said("promise: Lanes\nclause: put (back)\nwrong body: lost-refused-put\nfile: src/a.rt\nold: a\nnew: b\n")
        self.assertEqual(said, {"promise": ["Lanes"], "clause": ["put (back)"], "wrong body": ["lost-refused-put"]})

    def test_one_without_a_promise_is_refused(self):
        with self.assertRaises(tables.Unmade):
            self.said("file: src/a.rt\nold: a\nnew: b\n")


class Rows(unittest.TestCase):
    """What a row of docs/specification/rows.md says of its replay."""

    def test_lines_that_are_the_same_are_counted(self):
        self.assertEqual(tables.script_of(["call"] * 11 + ["show"]), "- Script: 11 lines `call`, then `show`.")
        self.assertEqual(tables.script_of(["call"] * 2 + ["show"]), "- Script: `call / call / show`.")

    def test_a_row_without_a_replay_stays(self):
        self.assertEqual(tables.run_of("no-such-row", "- Output: `x`.\n"), "- Output: `x`.\n")

    def test_a_replay_is_said(self):
        self.assertEqual(tables.run_of("hand-refused", ""), "- Script: `hand 0`.\n- Output: `hand 0 refused 5 / cpu 0 ran 0 back 0 routes 0 / reports 0`.\n")


if __name__ == "__main__":
    unittest.main()
