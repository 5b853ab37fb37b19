"""What a law's page says: which computed instance meets its premises, and which proofs rest on it.
The expected values are from the sources."""
import unittest
from pathlib import Path

from robus_docs.atlas import Atlas, is_law
from robus_docs.documents import Documents
from robus_docs.instances import Instances, is_binder, matched, premises_of
from robus_docs.laws import Laws
from robus_docs.numbers import Term, number
from robus_docs.pages import Pages
from robus_docs.proofs import Proofs, callers_of, owner_of
from robus_docs.source import CRATES, Module
from robus_docs.texts import bare, parts_at, words_at

ATLAS = Atlas()
PROOFS = Proofs(ATLAS)
INSTANCES = Instances(ATLAS)
PROVED = """use Rattle.rb_base.proofs.Sets.{has-set_of, kept}
pub one-step : (n : ℕ) → n < 2 → P n
    → Q n
one-step n below = two-steps n (first-step n)  -- last-step
  where
    kept-here : P 1
    kept-here = x.has-set_of
pub record Kept (kept : ℕ) : Type 0 where
  pub one-step : ℕ
two-steps :
    ℕ
two-steps = record { has-set_of = 2; other = one-step 1 }
"""


def law(crate: str, module: str, name: str):
    """The premises of a law, and the instances that state the most of them."""
    premises = premises_of((CRATES / crate / f"specs/{module}.antt", name))
    return premises, INSTANCES.of_law(premises)


def cases(instances: list) -> list:
    """The names of the cases of each instance."""
    return [[case.name for case in it.cases] for it in instances]


class Lemmas(unittest.TestCase):
    def test_statements_and_words(self):
        found = Module(Path("x.antt"), PROVED).lemmas
        self.assertEqual([(it.name, it.kind, it.line) for it in found.values()],
                         [("one-step", "", 2), ("Kept", "record", 8), ("two-steps", "", 10)])
        self.assertEqual(found["one-step"].statement, "(n : ℕ) → n < 2 → P n → Q n")
        self.assertEqual(found["two-steps"].statement, "ℕ")
        words = found["one-step"].words
        self.assertTrue({"two-steps", "first-step", "P", "Q"} <= words)
        self.assertFalse({"n", "below", "last-step", "has-set_of", "kept-here"} & words)
        self.assertNotIn("one-step", found["Kept"].words)
        self.assertIn("one-step", found["two-steps"].words)
        self.assertNotIn("has-set_of", found["two-steps"].words)


class Texts(unittest.TestCase):
    def test_parts_and_words(self):
        self.assertEqual(parts_at("(a : A → B) → P a → Q", "→"), ["(a : A → B)", "P a", "Q"])
        self.assertEqual(words_at("f (g x) (y).z  1"), ("f", "(g x)", "(y).z", "1"))
        self.assertEqual([bare(it) for it in ("((x))", "(x) (y)", "(x).y")],
                         ["x", "(x) (y)", "(x).y"])
        self.assertTrue(is_binder("(a b : A) {c : C}"))
        self.assertFalse(is_binder("((a : A) → P a)"))

    def test_values(self):
        names = frozenset({"sc", "i", "slot"})
        for said, stated, values in (
                ("P sc i", "P bus 0", {"sc": "bus", "i": "0"}),
                ("P sc sc", "P bus tram", None),
                ("P sc (last sc)", "P bus 19", {"sc": "bus"}),
                ("P sc (last sc)", "P bus (last tram)", None),
                ("P (f i sc) slot", "P (f 1 bus) 2", {"i": "1", "sc": "bus", "slot": "2"}),
                ("P sc.plan sc", "P bus.plan bus", {"sc": "bus"}),
                ("P sc sc.plan", "P bus plan", None),
                ("P sc Biu", "P bus Rmu", None),
                ("P sc", "¬ P bus", None)):
            self.assertEqual(matched(said, stated, {}, names), values, (said, stated))


class Premises(unittest.TestCase):
    def test_one_case_states_all(self):
        premises, found = law("rb_laws_agreement", "OneSlot", "OneSlotAgrees")
        self.assertEqual([it.text for it in premises],
                         ["IsExchange x trusted owners", "KeepsPremise x"])
        self.assertEqual(cases(found), [["slot_with_a_lying_relay"]])
        self.assertEqual(found[0].values,
                         {"x": "lying_relay", "trusted": "all_trusted", "owners": "[]"})

    def test_premises_of_the_conclusion(self):
        premises, found = law("rb_laws_groups", "Laws", "MostFindsTheWord")
        self.assertEqual([it.within[1] if it.within else "" for it in premises],
                         ["", *["FindsTheirWord"] * 4])
        self.assertEqual(cases(found), [["a_faulty_replica"]])
        self.assertEqual(set(found[0].facts), set(premises))

    def test_two_nodes_are_two_if_they_may_be(self):
        _, found = law("rb_laws_groups", "Laws", "GroupsAgree")
        self.assertEqual({found[0].values[it] for it in ("i", "j")}, {"0", "1"})

    def test_two_cases_speak_of_one_scenario(self):
        _, found = law("rb_laws_events", "OwnMoments", "CoresAreThoseOfTheRounds")
        self.assertEqual(cases(found), [["alike_ports", "running_nodes"]])
        self.assertEqual(found[0].values["sc"], "one_state")

    def test_a_refused_scenario_is_no_instance(self):
        _, found = law("rb_laws_promise", "Laws", "ThePromiseIsKept")
        named = {it for names in cases(found) for it in names}
        self.assertIn("lawful_scenarios", named)
        self.assertIn("a_listener_beside_a_run", named)
        self.assertFalse({"beyond_the_windows", "beyond_the_bus", "beyond_the_links"} & named)

    def test_a_condition_on_numbers_is_computed(self):
        premises, found = law("rb_laws_agreement", "Laws", "GoodNodesAgree")
        self.assertIn(["agreement_after_a_late_onset"], cases(found))
        self.assertNotIn(["alike_ports"], cases(found))  # whose slot is the sync slot
        slot, = found[0].orders.items()
        self.assertEqual((slot[0].text, slot[1].left, slot[1].right, slot[1].holds),
                         ("slot < sync_slot_of sc.sizes", 6, 19, True))

    def test_a_number_in_a_case_is_what_the_premise_computes(self):
        compared = 0
        for crate, name, call in ATLAS.calls():
            places = ATLAS.in_contract(call) if is_law(crate) else []
            premises = tuple(it for place in places for it in premises_of(place))
            for instance in INSTANCES.of_law(premises):
                for premise, fact in instance.facts.items():
                    for one, other in zip(words_at(premise.text), words_at(fact.text)):
                        if other.isdigit() and len(words_at(bare(one))) > 1:
                            found = number(instance.term(bare(one), premise))
                            self.assertIn(found, (None, int(other)), (name, premise.text))
                            compared += found is not None
        self.assertGreater(compared, 5)

    def test_what_no_case_states(self):
        premises, found = law("rb_laws_agreement", "Laws", "TimeKeepsThePromise")
        left = [it.text for it in premises if it not in found[0].facts]
        self.assertEqual(left, ["KeepsTime sc hands"])
        self.assertEqual(law("rb_laws_sweeps", "Laws", "NothingIsHeard")[1], [])


class Numbers(unittest.TestCase):
    def test_fields_sums_and_equations(self):
        here = CRATES / "rb_test_rules/src/premises.rt"
        rules = CRATES / "rb_laws_agreement/specs/Laws.antt"
        for text, value, expected in (
                ("sync_slot_of sc.sizes", "one_state", 2 * 2 + 1 + 2),
                ("sync_slot_of sc.sizes", "smallest_bus", 2 * 1 + 1 + 1),
                ("count_of Rmu sc.sizes", "failing_rmu", 3),
                ("sc.sizes.bius", "nobody", None)):
            found = number(Term(text, rules, {"sc": Term(value, here)}))
            self.assertEqual(found, expected, (text, value))
        self.assertEqual(number(Term("2 * (3 + 4) + 1", rules)), 15)
        self.assertIsNone(number(Term("n + 1", rules, {"n": Term("", rules)})))


class Citing(unittest.TestCase):
    def test_the_proof_of_a_function(self):
        top = CRATES / "rb_top/proofs/top/run_robus/Answers.antt"
        self.assertEqual(owner_of(top), ("rb_top", "run_robus"))
        method = CRATES / "rb_world/proofs/world/World/event/Answers.antt"
        self.assertEqual(owner_of(method), ("rb_world", "World::event"))
        self.assertIsNone(owner_of(CRATES / "rb_top/proofs/Promised.antt"))

    def test_who_calls_a_private_function(self):
        self.assertEqual(callers_of("rb_world", "happen"), ("World::take_into",))
        self.assertIn(("rb_world", "World::take"),
                      set(PROOFS.calls_with(("rb_world", "happen"))))

    def test_through_lemmas_to_the_top_call(self):
        citing = PROOFS.citing(("rb_laws_promise", "good_bius_get_their_share"))
        shares = CRATES / "rb_laws_promise/proofs/Shares.antt"
        self.assertEqual(citing.lemmas, ((shares, "shares-kept"),))
        self.assertIn(("rb_laws_promise", "runs_keep_the_promise"), citing.laws)
        self.assertIn(("rb_top", "run_robus"), citing.calls)

    def test_a_law_with_the_lemma_of_another_in_its_proof(self):
        held = PROOFS.citing(("rb_laws_agreement", "held_words_are_delivered"))
        self.assertEqual([name for _, name in held.lemmas], ["held-delivered"])
        delivered = PROOFS.citing(("rb_laws_agreement", "deliveries_are_right"))
        self.assertIn(("rb_laws_agreement", "held_words_are_delivered"), delivered.laws)

    def test_nobody(self):
        citing = PROOFS.citing(("rb_laws_sweeps", "nothing_is_heard"))
        self.assertEqual((citing.laws, citing.calls), ((), ()))


class Sentences(unittest.TestCase):
    def test_the_page_says_it(self):
        laws = Laws(Pages(ATLAS, Documents(ATLAS)), PROOFS, INSTANCES)
        pages = {name: laws.page(crate, name, call) for crate, name, call in laws.all()}
        for name, said in (
                ("one_slot_agrees", "slot_with_a_lying_relay</code></a> meets all of them."),
                ("time_keeps_the_promise", "<b>No computed instance</b>: no case states"),
                ("good_senders_are_heard", " of the same values; <a href"),
                ("good_senders_are_heard", "good_sender</code></a> states"),
                ("nothing_is_heard", "<b>No computed instance</b>: no case states one of"),
                ("nothing_is_heard", "It stands for itself: no call and no other law rests on it"),
                ("nobody_is_ahead", "This law has no premises"),
                ("a_listener_beside_a_run", "This law is a computed instance itself"),
                ("runs_keep_the_promise", "rb_top::run_robus</code></a>")):
            self.assertIn(said, pages[name], name)


if __name__ == "__main__":
    unittest.main()
