"""Sweeps: a row for each choice of values, which has what docs/CAMPAIGNS.md says of a row."""
import csv
import io
import unittest

import robus
from helpers import EXAMPLES, ending_of, output_of
from robus import Scenario, SweepRow

LATE = EXAMPLES / "late_onset.toml"


class Sweeps(unittest.TestCase):
    def test_each_choice_has_the_row_of_its_run(self):
        scenario = Scenario.read(LATE)
        rows = robus.sweep(scenario, {"fault[0].frame": [0, 2], "fault[0].slot": range(4, 7)})
        self.assertEqual([it.changes for it in rows], [{"fault[0].frame": f, "fault[0].slot": s} for f in (0, 2) for s in (4, 5, 6)])
        for row in rows:
            self.assertIsInstance(row, SweepRow)
            self.assertEqual(row.summary, robus.run(scenario.with_(row.changes)).summary)
        self.assertEqual(rows, robus.sweep(scenario, {"fault[0].frame": [0, 2], "fault[0].slot": range(4, 7)}, workers=3))

    def test_the_rows_of_the_page(self):
        ended = robus.run(LATE).summary
        self.assertEqual((ended.status, ended.cause, ended.convicted, ended.spread, ended.deliveries, ended.none), (0, "", ("B2",), 0, 30, 2))
        broken = robus.run(EXAMPLES / "two_sided.toml").summary
        self.assertEqual((broken.status, broken.frame, broken.slot, broken.stage, broken.cause), (1, 0, 6, 2, "TwoSided"))
        self.assertEqual((broken.convicted, broken.spread, broken.deliveries, broken.none), ((), 0, 7, 0))

    def test_a_refused_scenario_has_a_row(self):
        row, = robus.sweep(LATE, {"fault[0].slot": [14]})
        self.assertEqual((row.summary.status, row.summary.cause, row.summary.spread), (3, "5 OutOfRange", None))

    def test_silence_costs_the_slots_that_are_left(self):
        """examples/late_onset.toml: B2 falls silent, and until it is convicted its slot brings
        none, to two good BIUs."""
        rows = robus.sweep(LATE, {"fault[0].slot": range(14)})
        self.assertEqual([it.summary.none for it in rows], [0, 0, 0, 2, 2, 2] + [0] * 8)
        self.assertTrue(all(it.summary.convicted == ("B2",) for it in rows))


    def test_keys_that_change_together(self):
        """examples/symmetric_liar.toml: its liar is moved with all that it says."""
        liar = Scenario.read(EXAMPLES / "symmetric_liar.toml")
        key = "fault[0].node,say[*].from"
        rows = robus.sweep(liar, {key: ["R0", "R1", "R2"]})
        self.assertEqual([it.changes for it in rows], [{key: name} for name in ("R0", "R1", "R2")])
        self.assertEqual([it.summary.status for it in robus.sweep(liar, {"fault[0].node": ["R0", "R1", "R2"]})].count(3), 2)
        for row, name in zip(rows, ("R0", "R1", "R2")):
            self.assertEqual((row.summary.status, row.summary.convicted), (0, (name,)))


class Tool(unittest.TestCase):
    def test_a_key_that_is_nested_too_deeply(self):
        """docs/SCENARIOS.md: a key has at most 80 parts, so the document is no TOML to robus."""
        deep = ".".join(["x"] * 2000) + " = 1\n"
        text = (EXAMPLES / "late_onset.toml").read_bytes() + deep.encode()
        status, out, said = ending_of("sweep", ["-", "frames=1"], text)
        self.assertEqual((status, out), (3, ""))
        self.assertIn("refused 1 NotToml", said)

    def test_rows_of_csv(self):
        status, text = output_of("sweep", [LATE, "fault[0].slot=5..6", "fault[0].node=B2,R2"])
        rows = list(csv.DictReader(io.StringIO(text)))
        self.assertEqual((status, [it["fault[0].slot"] for it in rows]), (0, ["5", "5", "6", "6"]))
        self.assertEqual([it["convicted"] for it in rows], ["B2", "R2", "B2", "R2"])
        self.assertEqual([it["none"] for it in rows], ["2", "0", "0", "0"])

    def test_arrays(self):
        _, text = output_of("sweep", ["-", "words=[[1, 2, 3], [4, 5, 6, 7]]"], LATE.read_bytes())
        rows = list(csv.DictReader(io.StringIO(text)))
        self.assertEqual([(it["status"], it["cause"]) for it in rows], [("0", ""), ("3", "5 OutOfRange")])

    def test_words_that_make_no_sense(self):
        self.assertEqual(output_of("sweep", [LATE, "frames"])[0], 2)
        self.assertEqual(output_of("sweep", [LATE, "fault[7].slot=1"])[0], 2)
        self.assertEqual(output_of("sweep", ["nosuch.toml", "frames=1"])[0], 2)
        self.assertEqual(output_of("sweep", ["-", "frames=1"], b"biu = \n")[0], 3)


if __name__ == "__main__":
    unittest.main()
