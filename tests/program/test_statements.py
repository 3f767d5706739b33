"""What tools/statements.py and tools/definitions.py read of contracts and definitions, on small texts."""
import textwrap
import unittest
from unittest import mock

import programs  # (it finds tools/)
import definitions
import tables
from definitions import Cited, Definitions, Target, Unread, binders, has_operator, imports_of, names_in, rust_item
from statements import contract_of, links, names_told, type_parameters

DEFINITIONS = """\
-- What the file has.
use Rattle.std.specs.Prelude.{ℕ, List, ◌∷◌, Some as Just}
use Rattle.low.specs.declared.marks.Mark.TheVariants as marks

-- a heading, which belongs to nothing

-- the first
abbrev pub first : List ℕ → ℕ
first (x ∷ xs) = x
first (marks.Shut x) = first x
first (Just P) =
    longest P

module _ {J : Type 0} where
  -- a record
  pub record Row (w : Wide J)
      (other : ℕ) : Type 0 where
    -- its key
    pub key : ℕ
    pub is : ∥ key ≡ first w.keys other ∥₁

  abbrev pub RowOf : Wide J → Type 0
  RowOf key = Row key

-- data
pub data Step : Type 0 where
  Go : (far : ℕ) → Step
  Stay : Step
"""

SOURCE = """\
use rcu_jobs::{Job, Ticket};

/// A trait.
pub trait Reads {
    // Its key.
    ghost key_of: { Self → ℕ };

    fn read(&self) -> u64;
}

/// A name.
pub type Both<J> = Pair<J, J>;

impl<J: Job> Row<J> {
    fn other() {}

    /// Puts it.
    #[must_use]
    pub fn put<const N: u64>(&mut self, job: J) -> Ticket
        requires { N < limit }
        ensures put { IfOk result
            (λ t. t.number ≡ self.old.count) }
    {
        loop {}
    }
}
"""


def cited(name):
    """The names that a definition cites, each once."""
    it = Definitions(DEFINITIONS).named[name]
    return list(dict.fromkeys(head for head, _ in it.names(lambda name: name == "Just")))


class Names(unittest.TestCase):
    def test_what_a_text_binds_is_not_cited(self):
        self.assertEqual(binders("(x y : ℕ) → P x (λ z w. z) → let v = 1 in v"), {"x", "y", "z", "w", "v"})
        self.assertEqual([head for head, _ in names_in("(x : ℕ) → f x (λ y. g y) -- h")], ["ℕ", "f", "g"])

    def test_fields_and_their_names_are_not_cited(self):
        found = list(names_in("record { key = p.key; count = f (g q).count }", {"p", "q"}))
        self.assertEqual([head for head, _ in found], ["f", "g"])

    def test_what_follows_a_dot_is_kept_for_an_alias(self):
        self.assertEqual(list(names_in("marks.Shut 1")), [("marks", "Shut")])

    def test_operators(self):
        self.assertTrue(has_operator("◌++◌", "xs ++ (y ∷ [])"))
        self.assertFalse(has_operator("◌+◌", "xs ++ ys"))
        self.assertTrue(has_operator("if◌then◌else◌", "if b then x else y"))

    def test_imports(self):
        found = imports_of(DEFINITIONS)
        self.assertEqual(found.names["Just"], ("Rattle.std.specs.Prelude", "Some"))
        self.assertEqual(found.aliases, {"marks": "Rattle.low.specs.declared.marks.Mark.TheVariants"})


class OfAFile(unittest.TestCase):
    def test_each_has_its_comment_and_the_head_of_its_module(self):
        named = Definitions(DEFINITIONS).named
        self.assertEqual(list(named), ["first", "Row", "RowOf", "Step"])
        self.assertTrue(named["first"].text.startswith("-- the first\nabbrev pub first"))
        self.assertTrue(named["first"].text.endswith("    longest P"))
        self.assertTrue(named["Row"].text.startswith("module _ {J : Type 0} where\n  -- a record\n"))
        self.assertTrue(named["RowOf"].text.endswith("RowOf key = Row key"))

    def test_a_variant_leads_to_its_data(self):
        self.assertEqual(Definitions(DEFINITIONS).find("Stay").name, "Step")

    def test_what_a_case_is_given_is_not_cited_but_for_variants(self):
        self.assertEqual(cited("first"), ["List", "ℕ", "marks", "Just", "longest"])

    def test_a_field_is_known_to_those_behind_it(self):
        self.assertEqual(cited("Row"), ["Wide", "ℕ", "first"])
        self.assertEqual(cited("RowOf"), ["Wide", "Row"])


class OfASource(unittest.TestCase):
    def test_a_trait_goes_to_its_brace_and_a_name_to_its_end(self):
        self.assertTrue(rust_item(SOURCE, "Reads").endswith("read(&self) -> u64;\n}"))
        self.assertEqual(rust_item(SOURCE, "Both"), "/// A name.\npub type Both<J> = Pair<J, J>;")
        self.assertIsNone(rust_item(SOURCE, "Ticket"))

    def test_a_contract_ends_before_the_body(self):
        found = contract_of(SOURCE, "put")
        self.assertEqual(found.block, "impl<J: Job> Row<J> {")
        self.assertEqual(textwrap.dedent(found.clauses).splitlines()[0], "requires { N < limit }")
        self.assertTrue(found.text.startswith("impl<J: Job> Row<J> {\n    /// Puts it.\n    #[must_use]\n"))
        self.assertTrue(found.text.endswith("self.old.count) }"))
        self.assertEqual(type_parameters(found.block, found.signature), {"J", "N"})

    def test_no_such_function(self):
        with self.assertRaises(Unread):
            contract_of(SOURCE, "get")


class Unfolded(unittest.TestCase):
    def test_each_once_and_after_it_what_it_cites(self):
        leads = {"a": "bc", "b": "cd", "c": "", "d": "a"}
        cited = {name: Cited(name, name, Target("definition", "", name)) for name in leads}
        with mock.patch.object(definitions, "cites", lambda it: [cited[name] for name in leads[it.name]]):
            found = definitions.unfolded([cited["a"]])
        self.assertEqual("".join(it.name for it in found), "abcd")

    def test_links_to_names_that_are_alike(self):
        self.assertEqual(tables.anchors(["`Ran`", "ran", "The `x`", "RAN", "Rand"]), ["ran", "ran-1", "the-x", "ran-2", "rand"])
        self.assertEqual(links([Target("declared", "a.rt", "Row")]), [("a.rt", "[`Row`](#row)")])

    def test_a_name_that_leads_nowhere(self):
        with self.assertRaises(Unread):
            list(definitions.cited_by([("lost", "")], imports_of(""), lambda name: None))

    def test_what_the_toolchain_has_is_named_alone(self):
        found = list(definitions.cited_by([("Just", "")], imports_of(DEFINITIONS), lambda name: None))
        self.assertEqual(found, [Cited("Just", "Some", Target("given", "Rattle.std.specs.Prelude", "Some"))])

    def test_words_of_another_name_or_of_several_definitions_are_told(self):
        one, other = Target("definition", "crates/low/specs/One.antt", "front"), Target("declared", "crates/low/src/marks.rt", "Mark")
        cited = [Cited("front", "front", one), Cited("end", "front", one), Cited("marks", "", other), Cited("Mark", "Mark", other)]
        self.assertEqual(list(names_told(cited, (), "")), ["`end` is `front`", "`marks` has the variants of `Mark`"])
        told = list(names_told(cited[:2], {"front"}, ""))
        self.assertEqual(told, ["`front` is that of `low/specs/One.antt`", "`end` is `front` of `low/specs/One.antt`"])
        self.assertEqual(list(names_told(cited[:1], {"front"}, one.place)), ["`front` is that of this file"])


if __name__ == "__main__":
    unittest.main()
