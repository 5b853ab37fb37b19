"""What tools/explain says of runs whose faults the comments of examples/ name."""
import unittest

from helpers import EXAMPLES, output_of, run_model
from robus.model import model, read
from robus.watch import watch

SILENT = b"""biu = 3
rmu = 3
slots = 4
frames = 2
[[fault]]
node = "R1"
frame = 0
slot = %d
[[fault]]
node = "R2"
frame = 0
slot = %d
"""
BUS = b"""biu = 3
rmu = 3
slots = 4
frames = 2
requests = [2, 1, 1]
words = [10, 20, 30]
"""


def explained(name: str, *words) -> str:
    status, text = output_of("explain", [EXAMPLES / name, *words])
    assert status == 0
    return text


class Explain(unittest.TestCase):
    def test_watching_changes_no_run(self):
        for path in EXAMPLES.glob("*.toml"):
            lines = watch(read(path.read_bytes())).lines
            self.assertEqual(lines, run_model("run", data=path.read_bytes()).splitlines())

    def test_two_liars_of_three(self):
        text = explained("too_few_good.toml")
        self.assertIn("breach in frame 0, slot 0 (request of B0), stage 2: FewGoodRmu", text)
        self.assertIn("RMUs: 1 good, 2 symmetric\n", text)
        for name in ("R1", "R2"):
            self.assertIn(f"{name}   symmetric, faulty since frame 0, slot 0\n"
                          "     slot 0 (request of B0), stage 2: B0..B2 took 9\n", text)

    def test_two_faces_on_both_sides(self):
        text = explained("two_sided.toml")
        self.assertIn("breach in frame 0, slot 6 (data 2), stage 2: TwoSided", text)
        self.assertIn("B1   asymmetric, faulty since frame 0, slot 5\n"
                      "     slot 5 (data 1), stage 1: R0 took 1; R1 R2 took 2\n", text)
        self.assertIn("R2   asymmetric, faulty since frame 0, slot 6\n"
                      "     slot 6 (data 2), stage 2: B0 took 5; B2 took 6; B3 took nothing\n", text)

    def test_silence_in_mid_frame(self):
        run = watch(read(SILENT % (5, 5)))
        self.assertEqual((run.place, run.breach), ((0, 5, 1), "FewGoodRmu"))
        self.assertEqual(run.classes[1, 1], "symmetric")
        run = watch(read(SILENT % (0, 0)))
        self.assertIsNone(run.breach)

    def test_who_convicted_and_why(self):
        text = explained("late_onset.toml")
        self.assertIn("B2 is convicted from frame 2 on: of the 3 vectors of frame 1 that count, 3 name it (R0..R2), and 0 do not\n"
                      "  R0..R2: frame 1, slot 5 (data 2), stage 1: it said nothing where a message was due\n", text)
        text = explained("symmetric_liar.toml")
        self.assertIn("  B0: frame 0, slot 0 (request of B0), stage 2: it said 99, and 1 was right\n", text)
        text = explained("false_accuser.toml")
        self.assertIn("B2 is convicted from frame 1 on", text)
        self.assertNotIn("R0 is convicted", text)
        text = explained("two_buses.toml")
        self.assertIn("it sent bytes that spell no message of this bus (010000000002000000020607)", text)
        self.assertIn("nobody is convicted", explained("probation.toml"))

    def liars(self, *words: str) -> str:
        """What is explained of BUS with the liars that tools/faults writes."""
        _, entries = output_of("faults", ["-", *words], BUS)
        return output_of("explain", ["-"], BUS + entries.encode())[1]

    def test_why_a_liar_is_not_convicted(self):
        # Only B0 is lied to: one of three vectors names R2 in both frames; two are more than half
        text = self.liars("R2", "0/0/2=9@B0")
        self.assertIn("R2 is faulty since frame 0, slot 0, and is not convicted: of the 3 vectors "
                      "of frames 0..1 that count, 1 names it (B0), and 2 would be needed\n"
                      "  B0: frame 0, slot 0 (request of B0), stage 2: it said 9, and 2 was right",
                      text)
        # A word of a data slot is never held against its owner
        text = self.liars("B1", "0/4/1=7@R0", "0/4/1=8@R1,R2")
        self.assertIn("B1 is faulty since frame 0, slot 4, and is not convicted: no good node "
                      "has evidence against it\n", text)
        # In the last diagnosis slot of the last frame all BIUs have said their vectors
        text = self.liars("R2", "1/12=silent")
        self.assertIn("no vector of a frame that ended names it, but B0..B2 would\n  B0..B2: ",
                      text)

    def test_whom_a_faulty_node_accuses_and_what_that_tips(self):
        text = self.liars("R2", "0/0/2=9@B0", "B1", "0/4/1=21", "--unaware")
        self.assertIn("R2 is convicted from frame 1 on", text)
        self.assertIn("  without the vectors of faulty nodes (B1) it would not be convicted: "
                      "of 2 vectors, 1 names it (B0)\n", text)
        # R2 is convicted from frame 1 on, and vectors name trusted nodes alone
        self.assertIn("  B1 names R0 R1 in frame 1\n  B1 names R0..R2 in frame 0\n", text)

    def test_how_near_the_premise_came_to_a_breach(self):
        # Two good against one heard liar: with one more liar it is one against two
        text = self.liars("R2", "0/0/2=9@B0")
        self.assertIn("  BIUs: 3 good, 0 others heard; "
                      "a breach takes 2 more of the good to lie there\n", text)
        self.assertIn("  RMUs: 2 good, 1 other heard (R2) in frame 0, slot 0 (request of B0), "
                      "stage 2; a breach takes 1 more of the good to lie there\n", text)
        self.assertIn("  heard differently: R2 in frame 0, slot 0 (request of B0), stage 2; "
                      "a breach takes one of the BIUs too\n", text)
        text = explained("asymmetric_sender.toml", 0, 4)
        self.assertIn("  premise: BIUs 2 good, 1 other heard (B1); RMUs 3 good, 0 others heard\n",
                      text)

    def test_times_beside_ticks(self):
        # Slot 4 is 12 windows of 15 ticks of 10000 units behind the frame's start; a message that
        # is sent at tick 6 of its window takes a tick
        _, text = output_of("explain", ["-", "0", "4", "--unit", "100ps"], BUS)
        self.assertIn("frame 0, slot 4: data 1, from tick 180 (180 us) of the frame on\n", text)
        self.assertIn(" B1 20 at tick 7 (7 us) ", text)

    def test_a_slot(self):
        rows = [line.split("  ") for line in explained("asymmetric_sender.toml", 0, 4).splitlines()]
        rows = [[cell.strip() for cell in row if cell.strip()] for row in rows]
        self.assertIn(["R0", "-", "B1 7 at tick 6", "B1 7", "-", "-"], rows)
        self.assertIn(["B0", "-", "R0 7 at tick 7, R1 R2 8 at tick 7", "R0 7, R1 R2 8", "8", "-"], rows)
        self.assertIn(["R2", "8", "-", "-", "-", "-"], rows)

    def test_evidence_in_a_slot(self):
        rows = [line.split() for line in explained("late_onset.toml", 1, 5).splitlines()]
        self.assertIn(["R0", "-", "-", "-", "-", "B2"], rows)
        rows = [line.split() for line in explained("late_message.toml", 0, 0).splitlines()]
        self.assertEqual([row[-1] for row in rows if row[:1] == ["B1"]], ["-", "R1", "-"])

    def test_a_slot_that_there_is_not(self):
        self.assertEqual(output_of("explain", [EXAMPLES / "late_onset.toml", 0, 14])[0], 2)
        self.assertEqual(output_of("explain", [EXAMPLES / "late_onset.toml", 3, 0])[0], 2)

    def test_convictions_are_those_of_the_report(self):
        for path in EXAMPLES.glob("[!l]*.toml"):
            report = [line.split() for line in run_model("run", data=path.read_bytes()).splitlines()]
            masks = [(int(row[3]), int(row[4])) for row in report if row[0] == "c"][-1]
            count = masks[0].bit_count() + masks[1].bit_count()
            self.assertEqual(explained(path.name).count(" is convicted from frame "), count, path)

    def test_a_refused_scenario(self):
        self.assertEqual(output_of("explain", ["-"], b"biu = 1\n"), (3, ""))


if __name__ == "__main__":
    unittest.main()
