"""The reader of sources and definitions, on forms that are easy to read wrongly."""
import unittest
from pathlib import Path

from helpers import TOP
from robus_docs.claims import call_faults, name_faults, path_faults
from robus_docs.library import Library
from robus_docs.source import CRATES, Module, meaning_of, module, operators_in, reach

DEFINITIONS = """-- About the file.
use Rattle.std.specs.Prelude.{ℕ, List}
use Rattle.rb_base.specs.Nodes.{Side, has as has_node}
use Rattle.rb_base.specs.{Nodes.Side.Biu, declared.values.Heard.TheVariants.{Word}}
use Rattle.rb_base.specs.Sizes as sizes

-- A heading.

-- the first line
-- and the second
unfoldable pub first : ℕ
    → ℕ
first zero = 0
first (suc n) = n  -- not has_node

infixl 10 ◌>>=◌
abbrev pub ◌>>=◌ : ℕ → ℕ
x >>= y = first y
pub record Pair : Type 0 where
  pub left : Side  -- Biu

own : ℕ
own = 1 >>= 2
"""
SOURCE = '''//! A file.
#![tactic(auto)]

ghost use Rattle.rb_base.specs.Nodes.{Side};

/// Has a brace: {.
pub trait Teller<'a> {
    /// What it says
    ghost told: { Self → List ℕ };
    fn tell(&mut self, what: &[(u8, u16)], _: [u8; 2]) -> bool
        requires { what.len() > 0 } // fewer { are no use
        ensures said { result ≡ true };

    fn rest(&self);
}

impl<'a, T: Into<Vec<u8>>> Teller<'a> for Kept<T> {
    fn tell(&mut self, what: &[(u8, u16)], _: [u8; 2]) -> bool {
        let brace = '{';
        let text = "} // \\" }";
        brace == '"' || text.is_empty()
    }
}

/// Doubles.
#[inline]
pub(crate) const fn double(number: u8,) -> u8
    ensures { result ≡ number.now + number.now }
{
    number + number
}

// fn commented(number: u8) {}
pub extern "C" fn exported(call: fn(u8, u8) -> u8) -> i32 { 0 }

#[test]
fn tried() {
    assert!(double(1) == 2);
}
'''


class Definitions(unittest.TestCase):
    here = Module(Path("x.antt"), DEFINITIONS)

    def test_each_definition_with_kind_comment_and_lines(self):
        found = {it.name: (it.kind, it.comment, len(it.lines)) for it in self.here.blocks.values()}
        self.assertEqual(found, {
            "first": ("unfoldable", "the first line and the second", 4),
            "◌>>=◌": ("abbrev", "", 2),
            "Pair": ("record", "", 2),
            "own": ("", "", 2),
        })
        self.assertEqual(self.here.about, "About the file.")

    def test_meaning_of_a_name(self):
        nodes = CRATES / "rb_base/specs/Nodes.antt"
        self.assertEqual(meaning_of(self.here, "has_node"), (nodes, "has"))
        self.assertEqual(meaning_of(self.here, "Biu"), (nodes, "Side"))
        self.assertEqual(meaning_of(self.here, "Word"), (CRATES / "rb_base/src/values.rt", "Heard"))
        self.assertEqual(meaning_of(self.here, "List"), "std.specs.Prelude.List")
        self.assertEqual(meaning_of(self.here, "own"), (Path("x.antt"), "own"))
        self.assertIsNone(meaning_of(self.here, "sizes"))
        self.assertIsNone(meaning_of(self.here, "nobody"))

    def test_reach_follows_names_and_operators(self):
        self.assertEqual(operators_in("own = 1 >>= 2", self.here), ["◌>>=◌"])
        places, kit = reach(module(CRATES / "rb_log/specs/Header.antt"), ["plan_in"])
        self.assertIn((CRATES / "rb_log/specs/Fields.antt", "number_at"), places)
        self.assertIn("std.specs.Prelude.Result", kit)


class Sources(unittest.TestCase):
    here = Module(Path("x.rt"), SOURCE)

    def test_each_function_with_its_owner_contract_and_size(self):
        found = [(it.full_name, it.arguments, it.body_lines, [c.name for c in it.clauses])
                 for it in self.here.functions]
        self.assertEqual(found, [
            ("Teller::tell", 3, 0, [None, "said"]),
            ("Teller::rest", 1, 0, []),
            ("Kept::tell", 3, 3, []),
            ("double", 1, 1, [None]),
            ("exported", 1, 0, []),
            ("tried", 0, 1, []),
        ])

    def test_a_method_of_a_trait_ends_at_its_own_contract(self):
        tell = self.here.functions[0]
        self.assertTrue(tell.code.endswith("ensures said { result ≡ true }"), tell.code)
        self.assertEqual([it.text for it in tell.clauses], ["what.len() > 0", "result ≡ true"])
        self.assertEqual(tell.contract_size, 27 + 30)

    def test_who_may_call(self):
        double, exported, tried = self.here.functions[3:]
        self.assertEqual((double.is_public, double.docstring), (False, "Doubles."))
        self.assertTrue(exported.is_public and exported.is_exported)
        self.assertTrue(tried.is_test and not tried.is_public)


class Claims(unittest.TestCase):
    def test_what_is_not_in_the_code_is_found(self):
        known = {"rb_top": Library("rb_top")}
        text = ("`rb_top::run_robus`, `promise`, and `usages`; `rb_top::walk`; `rb_none::run`;\n"
                "`rb_top/specs/Promise`, `rb_top/specs/Promised`; `Nobody::runs`; `robuses`")
        self.assertEqual([said for _, said in call_faults(text, known)], [
            "`rb_top::run_robus` has no clause and no condition `usages`",
            "`rb_top` has no public call `walk`",
            "there is no library `rb_none`",
            "no library has a public call `Nobody::runs`",
        ])
        self.assertEqual([said for _, said in path_faults(text)],
                         ["there is no file `rb_top/specs/Promised`"])
        self.assertEqual([said for _, said in name_faults("`tools/run`, `robuses`", {"run"})],
                         ["`robuses` stands nowhere in the code"])

    def test_the_promise_is_a_clause_of_the_top_call(self):
        self.assertTrue((TOP / "crates/rb_top/src/top.rt").exists())
        self.assertIn("promise", Library("rb_top").contract("run_robus"))


if __name__ == "__main__":
    unittest.main()
