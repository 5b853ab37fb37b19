"""What tools/plan computes: docs/SCENARIOS.md's numbers, and a plan of which no number can be
less."""
import random
import re
import unittest
from dataclasses import replace
from fractions import Fraction

from helpers import output_of, script
from robus.model import model
from robus.plan import least
from robus.units import DataSheet, Unit, time_text

maker = script("compare_models")


class Plans(unittest.TestCase):
    def test_the_default_plan_holds_up_to_slot_52(self):
        for slots, holds in ((4, True), (5, False)):
            self.assertEqual(model.first_failing(model.Bus(16, 16, slots)) is None, holds)

    def test_the_largest_bus(self):
        status, text = output_of("plan", ["--biu", "16", "--rmu", "16", "--slots", "64"])
        self.assertEqual(status, 0)
        self.assertIn("plan = { l = 17, h = 7, v = 20, z = 22, p = 60121 }\n", text)

    def test_the_failing_inequality_is_marked(self):
        status, text = output_of("plan", ["-"], b"biu = 4\nrmu = 3\nslots = 8\nframes = 1\nplan = { h = 5 }\n")
        self.assertEqual(status, 1)
        marked = [line.split()[0] for line in text.splitlines() if "FAILS" in line]
        self.assertEqual(marked, ["C1", "C3"])
        self.assertIn("raise h", text)
        self.assertIn("the plan fails: inequality 1 is the first", text)

    def test_what_is_no_plan_of_a_bus_is_told(self):
        for data in (b"", b"biu = ", b"frames = 99999999999999999999999\n", b"\xff", b"biu = 4\nrmu = 3\nslots = 8\nframes = 1\nplan = 3\n"):
            status, text = output_of("plan", ["-"], data)
            self.assertEqual((status, text), (3, ""), data)

    def test_both_sides_are_those_of_the_tutorial(self):
        _, text = output_of("plan", ["-"], b"biu = 3\nrmu = 3\nslots = 4\nframes = 2\n")
        rows = [line.split()[:3] for line in text.splitlines() if line.startswith("C")]
        self.assertEqual(rows, [["C1", "64994", "61382"], ["C2", "79992", "76382"], ["C3", "70006", "61412"], ["C4", "109989", "101413"],
                                ["C5", "75006", "61448"], ["C6", "129987", "126450"], ["C7", "60200", "60109"]])

    def test_each_of_the_four_may_be_greatest_in_inequality_7(self):
        # 2 e + 2 r (l + v + z) and the greatest of e, dmax + g - c s, c g - dmin and 2 r c, with l
        # = v = z = 1
        for (u, r, dmin, dmax, c), right in (((10000, 1, 5000, 15000, 1), 2 * 20001 + 6 + 20001), ((10000, 1, 15000, 15000, 0), 20002 + 6 + 25001),
                                             ((10000, 1, 100, 100, 5), 20002 + 6 + 49905), ((1000, 2, 299500, 299500, 300), 2004 + 12 + 1200)):
            plan = model.Plan(u=u, r=r, dmin=dmin, dmax=dmax, c=c, l=1, h=1, v=1, z=1)
            self.assertEqual(model.sides_of(model.Bus(1, 1, 1, plan))[6], (60200, right))

    def test_a_data_sheet(self):
        # 1 us in units of 1 ps is the greatest u that a plan may have; 50 ppm of it are 50
        words = ["--biu", "5", "--rmu", "4", "--slots", "12", "--drift", "50ppm",
                 "--delay", "2us..9us"]
        status, text = output_of("plan", [*words, "--rate", "1MHz"])
        self.assertEqual(status, 0)
        self.assertIn("the reference unit is 1 ps: 1000000 units are a tick of 1 us\n", text)
        self.assertIn("plan = { u = 1000000, r = 50, dmin = 2000000, dmax = 9000000, l = 60, "
                      "h = 24, ", text)
        # 26 slots of 3 windows of 60 ticks, then 60 + v + z, and the tail of at most v + z + 1
        plan = {key: int(value) for key, value in re.findall(r"(\w+) = (\d+)", text.split("\n")[3])}
        ticks = 26 * 180 + 60 + 2 * (plan["v"] + plan["z"]) + 1
        self.assertIn(f"a frame has at most {ticks} ticks, {ticks}000000 units of time "
                      f"({ticks / 1000} ms)\n", text)
        self.assertEqual(output_of("plan", [*words, "--tick", "1us"]), (0, text))

    def test_numbers_that_are_no_whole_units_are_covered(self):
        sheet = DataSheet(Fraction(1, 3_000_000), Fraction(50, 10**6),
                          (Fraction(15, 10**13), Fraction(1, 10**9)))
        # A tick is 333333 1/3 units: a third beside 50 ppm, which are 16 2/3; 1.5 ps rounds down
        self.assertEqual((sheet.unit(), sheet.numbers()),
                         (Unit.of("1ps"), {"u": 333333, "r": 17, "dmin": 1, "dmax": 1000}))
        # A delay of 2 s takes at most 10^9 units: 10 ns each
        sheet = DataSheet(Fraction(1, 1000), Fraction(0), (Fraction(1), Fraction(2)))
        self.assertEqual((str(sheet.unit()), sheet.numbers()["u"]), ("10 ns", 100000))

    def test_words_of_a_data_sheet_that_make_no_sense(self):
        bus = ["--biu", "5", "--rmu", "4", "--slots", "12"]
        sheet = ["--tick", "1us", "--drift", "50ppm", "--delay", "2us..9us"]
        for words in (["--tick", "1us"], [*bus, *sheet[:4]], [*bus, *sheet, "--u", "7"],
                      ["-", "--biu", "5"], [*bus, *sheet[:4], "--delay", "9us..2us"],
                      [*bus, *sheet[2:], "--tick", "0s"], [*bus, *sheet[2:], "--tick", "1"],
                      [*bus, *sheet[2:], "--rate", "1us"],
                      [*bus, "--tick", "1s", "--drift", "0ppm", "--delay", "1ns"]):
            self.assertEqual(output_of("plan", words, b""), (2, ""), words)

    def test_times_as_text(self):
        for seconds, text in ((Fraction(5041, 10**6), "5.041 ms"), (Fraction(0), "0 s"),
                              (Fraction(25), "25 s"), (Fraction(1, 3_000_000), "333.333 ns"),
                              (Fraction(-2, 10**6), "-2 us")):
            self.assertEqual(time_text(seconds), text)

    def test_no_number_of_the_least_plan_can_be_less(self):
        rng = random.Random(7)
        found = 0
        for _ in range(300):
            u = rng.choice([2, 10, 1000, 10000, 123457])
            dmin = rng.randint(1, 3 * u)
            start = model.Plan(u=u, r=rng.choice([0, 1, u // 5000]) % u, dmin=dmin, dmax=dmin + rng.choice([0, 1, u]), c=rng.randint(0, 3))
            bus = model.Bus(rng.randint(1, 16), rng.randint(1, 16), rng.randint(1, 64), start)
            plan = least(bus)
            if plan is None:
                continue
            found += 1
            self.assertIsNone(model.first_failing(replace(bus, plan=plan)))
            for key in ("l", "h", "v", "z", "p"):
                if getattr(plan, key) > (key != "p"):
                    lower = replace(plan, **{key: getattr(plan, key) - 1})
                    self.assertIsNotNone(model.first_failing(replace(bus, plan=lower)))
            other = maker.least_plan(replace(start, l=1, h=1, v=1, z=1, p=0), bus.sync)
            if other is not None:
                for key in ("l", "h", "v", "z", "p"):
                    self.assertLessEqual(getattr(plan, key), getattr(other, key))
        self.assertGreater(found, 100)

    def test_sizes_out_of_range(self):
        self.assertEqual(output_of("plan", ["--biu", "17", "--rmu", "1", "--slots", "1"])[0], 2)
        self.assertEqual(output_of("plan", ["--biu", "1"])[0], 2)


if __name__ == "__main__":
    unittest.main()
