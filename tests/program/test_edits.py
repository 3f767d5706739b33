"""What tools/edit_files.py reads of edits, and how tools/edits judges what a check said of the functions that they turn."""
import importlib.machinery
import importlib.util
import pathlib
import tempfile
import types
import unittest

import programs  # (it finds tools/)
import crates
import edit_files


def edits_program():
    """The module of tools/edits, which is a program."""
    loader = importlib.machinery.SourceFileLoader("edits", str(crates.ROOT / "tools/edits"))
    made = importlib.util.module_from_spec(importlib.util.spec_from_loader("edits", loader))
    loader.exec_module(made)
    return made


SOURCE = """\
use crate::hand::Hand;

const MOST: u64 = 64;

impl<J: Job> Hand<J> {
    /// Turns.
    pub fn turn(&mut self) -> u64
        ensures { result ≡ 1 }
    {
        self.look(1)
    }

    fn look(&mut self, by: u64) -> u64 {
        by + 1
    }
}

impl fmt::Display for Fault {
    fn fmt(&self) -> u64 {
        2
    }
}

impl From<io::Error> for Fault {
    fn from(error: io::Error) -> Fault {
        Fault::Read
    }
}

impl<J: Job> Drop for Hand<J> {
    fn drop(self) {
        let Hand { state: _ } = self;
    }
}

impl<J: Job> Whole<AllParts<Processor<J>>> {
    fn poll(&self) -> u64 {
        3
    }
}

pub extern "C" fn free_standing(n: u64) -> u64 {
    n * 4
}
"""


class Names(unittest.TestCase):
    """`function_at`: the function in which a text stands, by its name as the checker prints it, or the end of that name."""

    def name_at(self, text, place="src/turn.rt"):
        return edit_files.function_at(place, SOURCE, SOURCE.index(text))

    def test_a_method(self):
        self.assertEqual(self.name_at("self.look(1)"), "Hand::turn")
        self.assertEqual(self.name_at("by + 1"), "Hand::look")

    def test_a_trait(self):
        self.assertEqual(self.name_at("        2\n"), "FaultDisplay::fmt")
        self.assertEqual(self.name_at("Fault::Read"), "FaultFromIoError::from")
        self.assertEqual(self.name_at("let Hand { state"), "Hand::drop")

    def test_a_type_with_arguments(self):
        self.assertEqual(self.name_at("        3\n"), "Whole+AllParts+Processor+J::poll")

    def test_a_function_of_a_module(self):
        self.assertEqual(self.name_at("n * 4"), "turn::free_standing")
        self.assertEqual(self.name_at("n * 4", "src/parts/mod.rt"), "parts::free_standing")
        self.assertEqual(self.name_at("n * 4", "src/lib.rt"), "free_standing")

    def test_no_function(self):
        self.assertEqual(self.name_at("MOST: u64"), "")

    def test_all_of_a_crate(self):
        with tempfile.TemporaryDirectory() as room:
            source = pathlib.Path(room) / "src"
            source.mkdir()
            trait = "pub trait Job {\n    fn key(&self) -> u64;\n}\n\nfn after() {}\n"
            for name, text in {"turn.rt": SOURCE, "hand.rt": "pub struct Hand<J> {}\n", "lib.rt": trait}.items():
                (source / name).write_text(text, encoding="utf-8")
            found = ["/".join(it) for it in edit_files.functions_of(pathlib.Path(room))]
        own = ["turn/FaultDisplay/fmt", "turn/FaultFromIoError/from", "turn/Whole+AllParts+Processor+J/poll", "turn/free_standing"]
        hands = ["hand/Hand/turn", "hand/Hand/look", "hand/Hand/drop"]
        self.assertEqual(sorted(found), sorted(["after", *hands, *own]))


class Holes(unittest.TestCase):
    """`fill_proofs` and the check: a function that no edit turns isn't refused, whatever it calls."""

    def test_what_turns_nothing(self):
        program, crate = edits_program(), crates.read()["rcu_numbers"]
        same = next(it for it in edit_files.edits_of(crate) if it.function == "BoardWord::reported")
        same.pairs = [(place, old, old) for place, old, _ in same.pairs]
        with tempfile.TemporaryDirectory() as room:
            crates.fill_lane(crate, pathlib.Path(room))
            trial = program.Trial(crate, [same], pathlib.Path(room))
            self.assertEqual(trial.judge([same]), {same: program.End.PROVED}, trial.said)
            left_out = (trial.folder / "proofs/word/BoardWord/pack/Proof.antt").read_text(encoding="utf-8")
        self.assertIn("pack_spec = ?", left_out)

    def test_what_turns_a_callee_alone(self):
        program, crate = edits_program(), crates.read()["rcu_numbers"]
        named = {it.name: it for it in edit_files.edits_of(crate)}
        same, callee = named["foreign-report"], named["all-but-is-the-bit"]
        same.pairs = [(place, old, old) for place, old, _ in same.pairs]
        with tempfile.TemporaryDirectory() as room:
            crates.fill_lane(crate, pathlib.Path(room))
            trial = program.Trial(crate, [callee, same], pathlib.Path(room))
            self.assertEqual(trial.judge([callee, same]), {callee: program.End.REFUSED, same: program.End.WAITS}, trial.said)


class Reads(unittest.TestCase):
    """An edit by its file: which function it turns, and why it can't be applied."""

    def setUp(self):
        room = tempfile.TemporaryDirectory()
        self.addCleanup(room.cleanup)
        self.crate = pathlib.Path(room.name) / "some_crate"
        for place, text in {"src/turn.rt": SOURCE, "specs/Turns.antt": "turns = 1\n"}.items():
            (self.crate / place).parent.mkdir(parents=True)
            (self.crate / place).write_text(text, encoding="utf-8")
        (self.crate / "gate-edits").mkdir()

    def edit(self, *lines):
        file = self.crate / "gate-edits/turned.edit"
        file.write_text("promise: some\n" + "".join(f"{it}\n" for it in lines), encoding="utf-8")
        return edit_files.Edit(file)

    def test_the_function_of_its_text(self):
        edit = self.edit("file: src/turn.rt", "old: by + 1", "new: by + 2")
        self.assertEqual((edit.fault(), edit.function), ("", "Hand::look"))

    def test_an_import_beside_it(self):
        edit = self.edit("file: src/turn.rt", "old: use crate::hand::Hand;", "new: use crate::hand::{Hand, Fault};", "old: by + 1", "new: by")
        self.assertEqual(edit.function, "Hand::look")

    def test_several_functions_or_none(self):
        two = self.edit("file: src/turn.rt", "old: by + 1", "new: by", "old: self.look(1)", "new: self.look(2)")
        self.assertEqual(two.function, "")
        self.assertEqual(self.edit("file: specs/Turns.antt", "old: turns = 1", "new: turns = 2").function, "")
        said = self.edit("function: Hand::turn", "file: specs/Turns.antt", "old: turns = 1", "new: turns = 2")
        self.assertEqual((said.function, said.turns_code, two.turns_code), ("Hand::turn", False, True))

    def test_those_that_cannot_stand_together(self):
        program = edits_program()
        one = self.edit("file: src/turn.rt", "old: by + 1", "new: by + 1 + self.look(1)")
        other = self.edit("file: src/turn.rt", "old:         self.look(1)", "new:         self.look(2)")
        clashes = self.edit("file: src/turn.rt", "old: self.look(1)", "new: self.look(3)")
        trial = program.Trial(types.SimpleNamespace(name="some_crate", folder=self.crate), [], self.crate / "room")
        self.assertEqual(trial.put([one, other]), [one, other])
        self.assertEqual(trial.put([one, clashes]), [one])
        self.assertEqual(trial.put([clashes]), [clashes])
        with self.assertRaises(edit_files.Unappliable):
            trial.put([self.edit("file: src/turn.rt", "old: by + 9", "new: by")])

    def test_what_cannot_be_applied(self):
        self.assertIn("0 times", self.edit("file: src/turn.rt", "old: by + 9", "new: by").fault())
        self.assertIn("no file", self.edit("file: src/gone.rt", "old: by", "new: by").fault())
        self.assertIn("no 'old:'", self.edit("file: src/turn.rt").fault())
        self.assertIn("before any", self.edit("new: by").fault())


class Ends(unittest.TestCase):
    """`end_of`: an edit is refused where the function's own proof fails, and nowhere else."""

    TURN, LOOK = "rcu_part_hand::turn::Hand::turn", "rcu_part_hand::turn::Hand::look"

    def end(self, how, of=TURN, look="depends on a hole in `Rattle.rcu_part_hand.proofs.turn.Hand.look.Proof.look_spec`"):
        return edits_program().end_of("Hand::turn", {of: how, self.LOOK: look}).name

    def test_refused(self):
        self.assertEqual(self.end("not proved"), "REFUSED")
        self.assertEqual(self.end("no proof: expected answers in ./proofs/turn; `search` did not prove `returns`"), "REFUSED")

    def test_still_proved(self):
        for how in ("proved", "proved, may wait", "no holes", "depends on a hole in `Rattle.rcu_part_hand.proofs.turn.Hand.look.Proof.look_spec`"):
            self.assertEqual(self.end(how), "PROVED", how)

    def test_it_calls_one_that_is_left_out(self):
        how = f"not proved; it stands on `turn.Answers.returns`, which antt refuses; it calls `{self.LOOK}`, which is not proved"
        self.assertEqual(self.end(how), "REFUSED")

    def test_another_is_not_proved(self):
        how = f"not proved; it calls `{self.LOOK}`, which is not proved"
        for look in ("not proved", "no proof: expected answers in ./proofs/turn/Hand/look/Answers.antt", "could not tell"):
            self.assertEqual(self.end(how, look=look), "WAITS", look)

    def test_its_own_closure_is_not_proved(self):
        self.assertEqual(self.end("not proved; it calls `rcu_part_hand::fn::turn::map+FnMut::call_mut`, which is not proved"), "REFUSED")

    def test_nothing_is_said(self):
        self.assertEqual(self.end("could not tell"), "UNKNOWN")
        self.assertEqual(self.end("not proved", of="rcu_part_hand::turn::Hand::other"), "UNKNOWN")

    def test_a_name_that_fits_two(self):
        said = {"rcu_part_hand::a::fmt": "not proved", "rcu_part_hand::b::fmt": "proved"}
        self.assertEqual(edits_program().end_of("fmt", said).name, "UNKNOWN")


class Own(unittest.TestCase):
    """`fails_itself`: whether a function's own proof fails, where another that it calls isn't proved either."""

    WORD, CALLS = "rcu_numbers::word::BoardWord::reported", "it calls `rcu_numbers::word::all_but`, which is not proved"

    def stands(self, *names):
        of = ", ".join(f"`Rattle.rcu_numbers.proofs.{it}.Answers.returns`" for it in names)
        return edits_program().fails_itself(self.WORD, f"not proved; it stands on {of}, which antt refuses; {self.CALLS}")

    def test_an_answer_of_its_own(self):
        self.assertTrue(self.stands("word.BoardWord.reported", "word.all_but"))
        self.assertFalse(self.stands("word.all_but"))
        self.assertFalse(self.stands("set.word.BoardWord.reported"))

    def test_a_goal_of_its_own(self):
        fails = edits_program().fails_itself
        self.assertTrue(fails(self.WORD, f"no proof: expected answers in ./proofs/word; `search` did not prove `returns`; {self.CALLS}"))
        self.assertFalse(fails(self.WORD, f"no proof: {self.CALLS}"))


class Rounds(unittest.TestCase):
    """`round_of`: the first that is left, and others of other functions; `shares_of`: those that share a copy."""

    class Edit:
        def __init__(self, function, body, turns_code=True):
            self.function, self.body, self.turns_code = function, body, turns_code

    def test_rounds(self):
        turn, again, look = self.Edit("Hand::turn", "self.look()"), self.Edit("Hand::turn", "self.look()"), self.Edit("Hand::look", "1")
        other, none, defines = self.Edit("Hand::cpu", "2"), self.Edit("", ""), self.Edit("Hand::ran", "", turns_code=False)
        round_of = edits_program().round_of
        self.assertEqual(round_of([turn, again, look, other, none, defines]), [turn, look, other])
        self.assertEqual(round_of([again, turn, none]), [again])
        self.assertEqual(round_of([none, look]), [none])
        self.assertEqual(round_of([defines, look]), [defines])

    def test_shares(self):
        program = edits_program()
        look, cpu, alone = self.Edit("Hand::look", "1"), self.Edit("Hand::cpu", "2"), [self.Edit("", "") for _ in range(program.MANY + 1)]
        self.assertEqual(program.shares_of([alone[0], look, cpu]), [[look, cpu], [alone[0]]])
        self.assertEqual([len(it) for it in program.shares_of(alone)], [program.MANY, 1])
        self.assertEqual(program.shares_of([]), [])


if __name__ == "__main__":
    unittest.main()
