"""Scenarios as values: what docs/LIBRARY.md says of reading, changing and writing, on what
docs/SCENARIOS.md says of their form."""
import random
import tempfile
import tomllib
import unittest
from pathlib import Path

import robus
from helpers import EXAMPLES, script
from robus import Scenario, toml

maker = script("compare_models")
LATE = EXAMPLES / "late_onset.toml"


class RoundTrips(unittest.TestCase):
    def round_trip(self, scenario: Scenario):
        document = scenario.to_dict()
        again = Scenario.from_dict(document)
        self.assertEqual(again.to_dict(), document)
        self.assertEqual(tomllib.loads(again.to_toml()), document)
        return again

    def test_all_examples_run_the_same(self):
        for path in EXAMPLES.glob("[!l]*.toml"):
            scenario = Scenario.read(path)
            self.assertEqual(scenario.text, path.read_bytes())
            self.assertEqual(robus.run(self.round_trip(scenario)).output, robus.run(path).output)

    def test_a_text_of_several_lines_is_the_scenario(self):
        self.assertEqual(robus.run(LATE.read_text()).output, robus.run(LATE).output)

    def test_bridges_keep_the_texts_in_them(self):
        for path in (EXAMPLES / "bridges").glob("*.toml"):
            self.round_trip(Scenario.read(path))

    def test_spoilt_documents(self):
        rng = random.Random(2)
        for seed in range(12):
            document = maker.random_scenario(random.Random(seed))
            for _ in range(5):
                maker.spoil(rng, document)
            self.round_trip(Scenario.from_dict(document))

    def test_texts_keys_and_times(self):
        document = {"": 'a "b"\n\\\x7f\x01é', "a b": {"c.d": [1, [], {}]}, "e": [{"f": -1.5}, {"f": []}], "g": False}
        self.assertEqual(toml.loads(toml.dumps(document).encode()), document)
        found = toml.loads(b"a = 2026-11-29 20:00:00\nb = { c = 07:30,\n }\n")
        self.assertEqual(toml.loads(toml.dumps(found).encode()), found)

    def test_files(self):
        with tempfile.TemporaryDirectory() as folder:
            path = Path(folder, "it.toml")
            Scenario.read(LATE).with_("frames", 2).write(path)
            self.assertEqual(Scenario.read(path).get("frames"), 2)


class Changes(unittest.TestCase):
    def setUp(self):
        self.scenario = Scenario.read(LATE)

    def test_a_new_one_is_given(self):
        changed = self.scenario.with_("fault[0].slot", 3)
        self.assertEqual((self.scenario.get("fault[0].slot"), changed.get("fault[0].slot")), (5, 3))
        self.assertEqual(self.scenario.text, LATE.read_bytes())
        self.assertEqual(changed, self.scenario.with_({"fault[0].slot": 3}))
        self.assertEqual(changed.with_("fault[0].slot", 5).to_dict(), self.scenario.to_dict())

    def test_what_is_missing_is_added(self):
        changed = self.scenario.with_({"plan.p": 60300, "fault[1]": {"node": "R0", "frame": 2, "slot": 0}, "clock[0].node": "B1"})
        self.assertEqual(changed.get("plan"), {"p": 60300})
        self.assertEqual(changed.get("fault[1].node"), "R0")
        self.assertEqual(changed.get("clock"), [{"node": "B1"}])
        self.assertEqual(robus.run(changed).convicted, ("B2", "R0"))
        self.assertEqual(changed.without("fault[1]").without("clock").without("plan").to_dict(), self.scenario.to_dict())

    def test_paths_that_are_none(self):
        for path in ("", "fault[", "fault[x]", ".biu", "[0]", "biu..rmu", "fault[0]slot"):
            with self.assertRaises(ValueError, msg=path):
                self.scenario.with_(path, 1)
        with self.assertRaises(ValueError):
            self.scenario.with_("biu.rmu", 1)
        with self.assertRaises(IndexError):
            self.scenario.with_("fault[2].slot", 1)
        with self.assertRaises(KeyError):
            self.scenario.without("fault[1]")
        self.assertEqual(self.scenario.get("fault[1].slot", "nothing"), "nothing")

    def test_whole_numbers_of_any_type(self):
        class Eight:
            def __index__(self):
                return 8

        self.assertEqual(self.scenario.with_("words", (Eight(), 1, 2)).get("words"), [8, 1, 2])

    def test_what_is_no_toml(self):
        with self.assertRaises(robus.Refused) as caught:
            Scenario.from_toml("biu = \n").with_("biu", 3)
        self.assertEqual((caught.exception.code, caught.exception.line), (1, 1))


if __name__ == "__main__":
    unittest.main()
