"""What tools/faults writes: a node whose lies are no lies is as good as a good one, and the run of
the entries is the liar's run."""
import random
import unittest

from helpers import output_of, run_model, script
from robus.faults import lie_in, lying
from robus.liars import Liar
from robus.model import model, name_of, read

maker = script("compare_models")
BUS = b"""biu = 3
rmu = 3
slots = 4
frames = 2
requests = [2, 1, 1]
words = [10, 20, 30]
"""


def lines_without(report: str, node: str) -> list:
    """The lines of a report but for those of one node."""
    words = [line.split() for line in report.splitlines()]
    return [it for it in words if not (it[0] in "ecp" and it[2] == node or it[0] == "d" and it[3] == node)]


def scenarios(count: int):
    """Random scenarios that the maker of tools/compare_models writes, with a node that is good in
    all of the run."""
    rng, found = random.Random(3), 0
    while found < count:
        data = maker.toml_text(maker.random_scenario(rng))
        scenario = read(data)
        good = [node for node in scenario.bus.nodes() if node not in scenario.onsets]
        if good and run_model("run", data=data).splitlines()[-1].startswith("end"):
            found += 1
            yield rng, data, scenario, rng.choice(good)


def right_word(scenario, node) -> str:
    """A lie that is none: the node's own request, or the empty vector that it says at first."""
    kind, number = node
    if kind == 0:
        return f"0/{number}/1={scenario.requests[number]}"
    return f"0/{2 * scenario.bus.biu + scenario.bus.slots + number}/1={vector_of(scenario, node)}"


def vector_of(scenario, node) -> int:
    """What an RMU says in its diagnosis slot of frame 0."""
    said = {}

    class Run(model.World):
        def send(self, at, time, frame, slot, stage, text):
            if at == node and stage == 1 and frame == 0 and slot < self.bus.sync:
                said[slot] = model.read_message(self.bus, text)[4]
            super().send(at, time, frame, slot, stage, text)

    Run(scenario).run()
    return said[2 * scenario.bus.biu + scenario.bus.slots + node[1]]


class Faults(unittest.TestCase):
    def test_lies_that_are_none_change_nothing_for_others(self):
        for _, data, scenario, node in scenarios(8):
            name = name_of(node)
            status, text = output_of("faults", ["-", name, right_word(scenario, node)], data)
            self.assertEqual(status, 0)
            with_liar = run_model("run", data=data + text.encode())
            if not with_liar.splitlines()[-1].startswith("end"):
                continue  # the others are too few without it
            onset = [line for line in text.splitlines() if line.startswith("slot =")][0]
            self.assertTrue(onset)
            self.assertEqual(lines_without(with_liar, name), lines_without(run_model("run", data=data), name))

    def test_the_entries_make_the_run_of_the_liar(self):
        for rng, data, scenario, node in scenarios(8):
            slot = rng.randrange(scenario.bus.sync)
            lie = f'0/{slot}..{scenario.bus.sync}={rng.choice(["silent", "fault", "99"])}'
            status, text = output_of("faults", ["-", name_of(node), lie], data)
            if status == 2:
                continue
            run = lying(read(data), [Liar(node, [lie_in(lie, scenario, node)])])
            self.assertEqual(run_model("run", data=data + text.encode()).splitlines(), run.lines)

    def test_the_entries_of_two_make_the_run_of_both(self):
        lies = {"R2": ["0/0/2=9@B0", "0/13=silent"], "B1": ["0/4/1=21", "1/4/1=22@R0,self"]}
        words = [word for name in lies for word in (name, *lies[name])]
        status, text = output_of("faults", ["-", *words], BUS)
        self.assertEqual(status, 0)
        scenario = read(BUS)
        liars = []
        for name, words in lies.items():
            node = model.node_in(scenario.bus, name)
            liars.append(Liar(node, [lie_in(word, scenario, node) for word in words]))
        run = lying(scenario, liars)
        self.assertEqual(run_model("run", data=BUS + text.encode()).splitlines(), run.lines)

    def test_a_word_to_some(self):
        status, text = output_of("faults", ["-", "B1", "0/4/1=7@R0", "0/4/1=8@R1,R2"], BUS)
        self.assertEqual(status, 0)
        report = run_model("run", data=BUS + text.encode()).splitlines()
        self.assertEqual([line for line in report if line.startswith("d 0 4")], ["d 0 4 B0 B1 8", "d 0 4 B2 B1 8"])
        self.assertIn("c 2 B0 0 0", report)
        self.assertIn("d 1 4 B0 B1 20", report)

    def convicted_by(self, *words: str) -> list[str]:
        """The last convictions that B0 tells of BUS with these liars."""
        status, text = output_of("faults", ["-", *words], BUS)
        self.assertEqual(status, 0)
        report = run_model("run", data=BUS + text.encode()).splitlines()
        return [line for line in report if line.startswith("c 2 B0")]

    def test_a_lie_that_all_are_told_is_told_to_the_liar(self):
        # B0 alone has evidence against R2, and one of three vectors convicts nobody
        lies = ["R2", "0/0/2=9@B0", "B1", "0/4/1=21"]
        self.assertEqual(self.convicted_by(*lies), ["c 2 B0 0 0"])
        # An unaware B1 holds the three relays of 21 against R0, R1 and R2: with B0's two of three
        # vectors name R2
        self.assertEqual(self.convicted_by(*lies, "--unaware"), ["c 2 B0 0 4"])

    def test_whom_lies_make_the_liar_accuse(self):
        def accused(*words: str) -> list[str]:
            _, text = output_of("faults", ["-", "B1", *words], BUS)
            lines = [line.split() for line in text.splitlines()]
            return [line[3] for line in lines if line[:3] == ["#", "B1", "accuses"]]

        to_some = "0/4/1=7@R0", "0/4/1=8@R1,R2"
        self.assertEqual(accused(*to_some), ["R0..R2"])
        self.assertEqual(accused(to_some[0], "0/4/1=8@R1,R2,self"), ["R0"])
        self.assertEqual(accused("0/4/1=7"), ["nobody"])
        # After the silence the RMUs take nothing from B1: its vector comes back as a fault
        self.assertEqual(accused("0/4/1=silent"), ["R0..R2"])
        # B1's word is 20: R0 alone is told another one
        self.assertEqual(accused("0/4/1=20@self", "0/4/1=7@R0"), ["R0"])

    def test_silence_in_one_slot_convicts(self):
        _, text = output_of("faults", ["-", "R2", "0/5=silent"], BUS)
        report = run_model("run", data=BUS + text.encode()).splitlines()
        self.assertIn("c 1 B0 0 4", report)
        self.assertIn("d 0 5 B0 B2 30", report)
        self.assertNotIn("frames = [0, 1]", text)

    def test_words_that_make_no_sense(self):
        for words in (["B1", "0/4"], ["B7", "0/4=1"], ["B1", "0/99=1"], ["B1", "5/4=1"],
                      ["B1", "0/4=1@B0"], ["B1", "0/4/3=1"], ["B1"], ["0/4=1"],
                      ["B1", "0/4=1", "B1", "0/5=1"], ["B1", "0/4/1=1@self", "--unaware"]):
            self.assertEqual(output_of("faults", ["-", *words], BUS), (2, ""), words)


if __name__ == "__main__":
    unittest.main()
