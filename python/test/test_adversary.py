"""The second model against adversaries that do anything: the promise holds up to the first breach
of the fault premise, and the checks find runs in which it does not hold."""
import unittest
from unittest import mock

from helpers import EXAMPLES
from robus import adversary
from robus import second_model as model

def first_broken(seed: str, count: int) -> str | None:
    """What is broken in the first of the `count` runs of a seed that break the promise, if any."""
    for number in range(count):
        try:
            adversary.random_run(f"{seed} {number}")
        except adversary.Broken as fault:
            return str(fault)
    return None


class Adversaries(unittest.TestCase):
    def test_the_promise_holds(self):
        self.assertIsNone(first_broken("holds", 60))

    def test_a_vote_for_the_first_value_is_found(self):
        def first(values):
            return next(iter(values), None)

        with mock.patch.object(model.closing, "majority_of", first):
            self.assertIsNotNone(first_broken("vote", 200))

    def test_the_latest_call_in_place_of_the_middle_is_found(self):
        with mock.patch.object(model.closing, "middle_of", max):
            self.assertIsNotNone(first_broken("middle", 200))

    def test_without_the_fault_premise_the_promise_fails(self):
        any_way = mock.patch.object(adversary, "ALIKE", adversary.ANY)
        with any_way, mock.patch.object(model.Judge, "verdict", lambda *_: None):
            self.assertIsNotNone(first_broken("premise", 200))

    def test_entries_are_a_behavior(self):
        """A run with the behavior that its entries list is the run of the scenario."""
        text = (EXAMPLES / "asymmetric_sender.toml").read_bytes()
        scenario = model.read_scenario(text)
        same = model.World(scenario, behavior=model.listed(scenario)).run().lines
        silent = model.World(scenario, behavior=lambda *_: []).run().lines
        self.assertEqual(model.World(scenario).run().lines, same)
        self.assertNotEqual(silent, same)

    def test_what_comes_outside_the_window_is_not_heard(self):
        text = (EXAMPLES / "asymmetric_sender.toml").read_bytes()
        scenario = model.read_scenario(text)
        own = model.listed(scenario)

        def also_late(site, span, source):
            late = site.clock.time_of(span.last) + 1, b"late"
            return [*own(site, span, source), late]

        self.assertEqual(model.World(scenario, behavior=also_late).run().lines,
                         model.World(scenario).run().lines)


if __name__ == "__main__":
    unittest.main()
