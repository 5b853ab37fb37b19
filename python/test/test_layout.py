"""The frame as docs/RULES.md draws it."""
import unittest

from helpers import EXAMPLES, output_of

BUS = b"biu = 4\nrmu = 3\nslots = 8\nframes = 2\nrequests = [2, 1, 0, 9]\n"


class Layout(unittest.TestCase):
    def rows(self, words: list[str], data: bytes = b"") -> dict:
        status, text = output_of("layout", words, data)
        self.assertEqual(status, 0)
        lines = text.splitlines()
        rows = lines[[line.startswith("slot ") for line in lines].index(True) + 1:]
        return {int(row[:5]): (row[6:23].strip(), row[24:31].strip(), row[32:]) for row in rows}

    def test_each_slot(self):
        rows = self.rows(["-"], BUS)
        self.assertEqual(sorted(rows), list(range(20)))
        self.assertEqual(rows[0], ("request of B0", "", "1 B0 to RMUs, 2 RMUs to BIUs, 3 BIUs to RMUs"))
        self.assertEqual(rows[4], ("data 0", "B0", "1 owner to RMUs, 2 RMUs to BIUs"))
        # 2, 1, 0 and 9 in turn: B0 B1 B3, B0 B3, and then B3 alone
        self.assertEqual([rows[slot][1] for slot in range(4, 12)], ["B0", "B1", "B3", "B0", "B3", "B3", "B3", "B3"])
        self.assertEqual(rows[12][0], "diagnosis by B0")
        self.assertEqual(rows[16], ("diagnosis by R0", "", "1 R0 to BIUs, 2 BIUs to RMUs, 3 RMUs to BIUs"))
        self.assertEqual(rows[19][0], "sync")

    def test_the_drawing(self):
        _, text = output_of("layout", ["-"], BUS)
        self.assertIn("| requests | data  | diagnosis by BIUs | diagnosis by RMUs | sync |\n"
                      "| 0..3     | 4..11 | 12..15            | 16..18            | 19   |\n", text)

    def test_owners_of_a_frame(self):
        before, after = (self.rows([EXAMPLES / "late_onset.toml", "--frame", frame]) for frame in (1, 2))
        self.assertEqual([before[slot][1] for slot in range(3, 7)], ["B0", "B1", "B2", "B0"])
        self.assertEqual([after[slot][1] for slot in range(3, 7)], ["B0", "B1", "B0", "B1"])

    def test_idle_slots_of_a_frame(self):
        rows = self.rows([EXAMPLES / "late_onset.toml", "--frame", 2])
        # B2 is convicted: its request slot 2 and its diagnosis slot 9 are idle
        idle = [slot for slot, row in rows.items() if row[2] == "idle: B2 is convicted"]
        self.assertEqual(idle, [2, 9])
        rows = self.rows(["-"], b"biu = 2\nrmu = 1\nslots = 3\nframes = 1\n")
        self.assertEqual(rows[4], ("data 2", "nobody", "idle: nobody owns it"))

    def test_the_time_of_each_slot(self):
        _, text = output_of("layout", ["-", "--unit", "100ps"], BUS)
        # A slot has three windows of 15 ticks of 1 us
        self.assertRegex(text, r"\n4     tick 180 \(180 us\) +data 0 +B0 ")

    def test_a_frame_that_there_is_not(self):
        self.assertEqual(output_of("layout", [EXAMPLES / "late_onset.toml", "--frame", 7])[0], 2)


if __name__ == "__main__":
    unittest.main()
