"""A bus whose BIUs say what software gives them: its records beside the report of the same run,
the library beside the second model, refusals, and calls in any order."""
import multiprocessing
import random
import unittest

import robus
from helpers import EXAMPLES, script
from robus import bus_library, engines, records, rows
from robus.engines import BUS
from robus.errors import NO_BUS
from robus.model import model

LATE = EXAMPLES / "late_onset.toml"
TWO_SIDED = EXAMPLES / "two_sided.toml"
LOOP = EXAMPLES / "c/loop.toml"
# Runs that take the second model long
LONG = "loop", "largest_bus", "long_run"
LIBRARY = engines.library()
HAS_BUS = LIBRARY is not None and LIBRARY.has(["open"], BUS)
RUNNERS = ([LIBRARY] if HAS_BUS else []) + [engines.model()]
MAKER = script("compare_models")
LINES = ("e 1 B0 2 3", "e 1 B0 2", "breach left 1 2 3 TwoSided", "breach 1 2 3 FewGoodBiu",
         "d 0 1 B2 B3 none", "end 7", "C7 1 2", "refused 6 PlanFails 3", "refused 1 NotToml", "w 5",
         "spread 4", "m 0 1 B2 B3 6869")
# Large scenarios are left out: these, which take long to make, and those that both_runs leaves
SEEDS = [seed for seed in range(112) if seed not in (31, 43, 66, 72)]
needs_library = unittest.skipUnless(HAS_BUS, "no librobus.so with a bus is there")


def text_of(bus: robus.Bus) -> str:
    """The report that the records of a bus are."""
    return "".join(line + "\n" for record in bus for line in records.lines_of(record))


def outcome(call, *arguments):
    """What a call gives, or the text of the BusError that it raises."""
    try:
        return call(*arguments)
    except robus.BusError as fault:
        return str(fault)


def random_function(draw: random.Random):
    """Software that says, in some frames, a word made of what it heard."""
    def offer(frame: int, heard: dict):
        if draw.random() < 0.3:
            return None
        return (draw.getrandbits(32) + sum(word or 1 for word in heard.values())) % 2**32

    return offer


def random_software(seed: int, scenario: model.Scenario) -> dict:
    """Software for some of the BIUs that may be handed words in frame 0."""
    draw = random.Random(seed)
    able = [f"B{number}" for number in range(scenario.bus.biu)
            if not model.why_not_handed(scenario, 0, number)]
    return {node: random_function(random.Random(f"{seed} {node}")) for node in able
            if draw.random() < 0.8}


def kept_words(run: robus.Simulation, scenario: model.Scenario) -> tuple[int, int]:
    """How many deliveries are from a good sender that was handed a word, and how many of them are
    the last one that it was handed."""
    held, found, hands = {}, [], list(run.words)
    for it in run.deliveries:
        while hands and hands[0].frame <= it.frame:
            hand = hands.pop(0)
            held[hand.node] = hand.word
        node = model.BIU, int(it.sender[1:])
        if it.sender in held and scenario.is_good(node, it.frame, it.slot):
            found.append(it.word == held[it.sender])
    return len(found), sum(found)


def both_runs(seed: int):
    """Whether library and second model agree on a random scenario with random software, and its
    kept words. None for a large scenario."""
    text = MAKER.toml_text(MAKER.random_scenario(random.Random(seed)))
    scenario = model.read_scenario(text)
    bus = scenario.bus
    if bus.biu * bus.rmu * bus.sync * scenario.frames > 1500:
        return None
    first, second = [robus.simulate(text, random_software(seed, scenario), engine=engine)
                     for engine in RUNNERS]
    agree = (first.output, first.words) == (second.output, second.words)
    return agree, *kept_words(first, scenario)


class Records(unittest.TestCase):
    def test_the_records_are_the_report(self):
        paths = [*sorted(EXAMPLES.glob("*.toml")), LOOP]
        self.assertGreater(len(paths), 14)
        for engine in RUNNERS:
            for path in paths:
                if engine is LIBRARY or path.stem not in LONG:
                    with robus.Bus(path, engine=engine) as bus:
                        self.assertEqual(text_of(bus), robus.run(path, engine=engine).text, path)

    def test_steps(self):
        for engine in RUNNERS:
            with robus.Bus(LATE, engine=engine) as bus:
                first = bus.next_frame()
                self.assertEqual((first.frame, first.good, first.time, first.convicted),
                                 (0, ("B0", "B1", "B2"), 0, ()))
                slot = bus.next_slot()
                self.assertEqual((slot.frame, slot.slot, slot.sender, slot.word), (0, 3, "B0", 10))
                self.assertEqual((bus.next().slot, next(bus).slot, bus.delivered), (4, 5, ()))
                self.assertEqual(bus.next_frame().frame, 1)
                self.assertEqual(len(bus.delivered), 12)
                self.assertEqual(bus.delivered[0], rows.Delivery(0, 3, "B0", "B0", 10))
                self.assertEqual((bus.next_frame().frame, bus.next_frame().frame), (2, 3))
                last = [bus.next_slot(), bus.next_frame(), bus.next()]
                self.assertEqual((last, list(bus)), ([robus.Ended(3)] * 3, []))

    def test_a_breach_is_the_last_record(self):
        for engine in RUNNERS:
            with robus.Bus(TWO_SIDED, engine=engine) as bus:
                *_, last = bus
            self.assertEqual(last, robus.Breach(None, 0, 6, 2, "TwoSided"))

    def test_each_row_is_its_line(self):
        for line in LINES:
            self.assertEqual(rows.line_of(rows.row_of(line)), line)


class Refusals(unittest.TestCase):
    def test_words_at_wrong_places(self):
        scenario = robus.Scenario.read(LATE).with_("apps", ["table", "counter", "table"])
        for engine in RUNNERS:
            bus = robus.Bus(scenario, engine=engine)
            self.assertEqual(outcome(bus.hand, "B0", 1), f"B0: {NO_BUS[14]}")
            bus.next_frame()
            self.assertIsNone(outcome(bus.hand, "B0", 1))
            self.assertEqual(outcome(bus.hand, "B3", 1), f"B3: {NO_BUS[15]}")
            self.assertEqual(outcome(bus.hand, "B1", 1), f"B1: {NO_BUS[16]}")
            self.assertEqual((bus.next_frame().frame, bus.next_frame().frame), (1, 2))
            self.assertEqual(outcome(bus.hand, "B2", 1), f"B2: {NO_BUS[15]}")
            bus.close()
            self.assertEqual(outcome(bus.hand, "B0", 1), f"B0: {NO_BUS[10]}")
            self.assertEqual((outcome(bus.next), outcome(next, bus)), (NO_BUS[10],) * 2)

    def test_wrong_arguments(self):
        for engine in RUNNERS:
            with robus.Bus(LATE, engine=engine) as bus:
                for node, word in (("R0", 1), ("B16", 1), (0, 1), ("B0", -1), ("B0", 1 << 32),
                                   ("B0", 1.0), ("B0", True)):
                    self.assertRaises(robus.BadArgument, bus.hand, node, word)
        for engine in ("/bin/true", "nothing"):
            self.assertRaises(robus.NoEngine, robus.Bus, LATE, engine=engine)

    def test_the_names_of_rules(self):
        for code, name in enumerate(bus_library.RULES[1:], 1):
            self.assertEqual(name, model.SCENARIO_RULES[code])

    def test_wrong_scenarios(self):
        late = robus.Scenario.read(LATE)
        for engine in RUNNERS:
            with self.assertRaises(robus.Refused) as refused:
                robus.Bus(late.with_("fault[0].slot", 14), engine=engine)
            it = refused.exception
            self.assertEqual((it.code, it.name, it.key), (5, "OutOfRange", "fault[0].slot"))
            with self.assertRaises(robus.Refused) as refused:
                robus.Bus(late.with_("plan.h", 5), engine=engine)
            self.assertEqual((refused.exception.code, refused.exception.number), (6, 1))


class AnyOrder(unittest.TestCase):
    def next_place(self, due: list, at: int, step: str) -> int:
        """Where a step leads from a place among the records; it stays at the last one."""
        for place in range(at + 1, len(due) - 1):
            it = due[place]
            if (step == "next" or step == "next_frame" and isinstance(it, robus.Frame)
                    or step == "next_slot" and isinstance(it, robus.Slot) and it.deliveries):
                return place
        return len(due) - 1

    def walk(self, bus: robus.Bus, due: list, draw: random.Random) -> None:
        """Asserts that each of some random calls has the answer that the records give."""
        at = -1
        with bus:
            for _ in range(draw.randrange(400)):
                step = draw.choice(["next", "next", "next_frame", "next_slot", "hand"])
                if step != "hand":
                    at = self.next_place(due, at, step)
                    self.assertEqual(getattr(bus, step)(), due[at])
                    continue
                # A word that the BIU says anyway, so that the records stay as they are
                node = draw.choice(["B0", "B1", "B2", "B3"])
                is_frame = at >= 0 and isinstance(due[at], robus.Frame)
                words = {it.node: it.state for it in due[at].ports} if is_frame else {}
                status = 14 if not is_frame else 0 if node in words else 15
                self.assertEqual(outcome(bus.hand, node, words.get(node, 0)),
                                 f"{node}: {NO_BUS[status]}" if status else None)

    def test_calls_in_any_order(self):
        for engine in RUNNERS:
            for path in (LATE, TWO_SIDED):
                due = list(robus.Bus(path, engine=engine))
                for seed in range(15):
                    self.walk(robus.Bus(path, engine=engine), due, random.Random(seed))


class Agreement(unittest.TestCase):
    @needs_library
    def test_the_model_and_the_library_agree(self):
        """On 100 random scenarios with random software."""
        with multiprocessing.Pool() as pool:
            found = [it for it in pool.imap(both_runs, SEEDS) if it]
        self.assertEqual((len(found), all(agree for agree, _, _ in found)), (100, True))
        due, right = (sum(it[place] for it in found) for place in (1, 2))
        self.assertEqual(due, right)
        self.assertGreater(due, 500)

    def test_a_good_sender_says_the_last_word_handed_in(self):
        scenario = model.read_scenario(LATE.read_bytes())
        for engine in RUNNERS:
            run = robus.simulate(LATE, random_software(4, scenario), engine=engine)
            due, right = kept_words(run, scenario)
            self.assertEqual((due > 10, right), (True, due))


if __name__ == "__main__":
    unittest.main()
