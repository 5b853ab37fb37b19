"""Software at the BIUs of a bus: controllers, closed loops with known numbers, tables of words,
letters, and floats as words."""
import contextlib
import io
import re
import sys
import tempfile
import unittest
from pathlib import Path
from statistics import median
from unittest import mock

import robus
from helpers import EXAMPLES, TOP, ending_of, output_of
from robus.errors import NO_BUS
from robus.handins import letter_words
from test_bus import LATE, LIBRARY, LOOP, RUNNERS, needs_library

SILENT = EXAMPLES / "one_silent_rmu.toml"
FLOATS = ((1.0, 0x3F800000), (-2.0, 0xC0000000), (0.1, 0x3DCCCCCD), (float("inf"), 0x7F800000))
HEADER = "frame,node,word\n"
NO_HEADER = ":1: the first line is not frame,node,word"
WRONG_TABLES = {
    "": NO_HEADER, "frame,word,node\n": NO_HEADER,
    HEADER + "0,B0\n": ":2: a line has a frame, a node and a word",
    HEADER + "0,B0,5\n0,R0,5\n": ":3: node: 'R0' names no BIU; names are B0 to B15",
    HEADER + "-1,B0,5\n": ":2: frame: '-1' is no integer from 0 to 4096",
    HEADER + "0,B0,4294967296\n": ":2: word: 4294967296 is no integer from 0 to 4294967295"}
WRONG_WORDS = (
    ([(0, "B0", 1), (0, "B0", 2)], "words: B0 has two words in frame 0"),
    ([(2, "B0", 1)], "words: the run has no frame 2"),
    ([(0, "B4", 1)], f"B4 in frame 0: {NO_BUS[15]}"),
    ([5], "words: 5 is no frame, node and word"),
    (b"x", "words: b'x' is no path of a CSV and no list of hand-ins"))
WRONG_LETTERS = (
    (["1:B0:68"], "letters: the run ends before 1:B0:68 is sent"),
    (["0:B0"], "letters: '0:B0' is not FRAME:NODE:HEX, as 3:B0:6869"),
    (["0:B0:"], "letters: '0:B0:': bytes: it has 0 bytes, and may have 1 to 255"),
    (["x:B0:68"], "letters: 'x:B0:68': frame: 'x' is no integer from 0 to 4096"),
    ("0:B0:68", "letters: '0:B0:68' is no list of letters, as [\"3:B0:6869\"]"),
    ([5], "letters: 5 is not FRAME:NODE:HEX, as 3:B0:6869"))


class Echo:
    """Software that says the first word of B0 that it delivers, and keeps all its calls."""

    def __init__(self):
        self.calls, self.word = [], None

    def deliver(self, slot, sender, word):
        self.calls.append((slot, sender, word))
        if sender == "B0" and self.word is None:
            self.word = word

    def offer(self, frame):
        self.calls.append(frame)
        return self.word


class Controllers(unittest.TestCase):
    def test_an_object_and_a_function(self):
        for engine in RUNNERS:
            echo, heard = Echo(), []

            def count(frame, said):
                heard.append(said)
                return 7 + frame

            run = robus.simulate(LATE, {"B1": echo, "B0": count}, engine=engine)
            first = [0, (3, "B0", 7), (4, "B1", 20), (5, "B2", 30), (6, "B0", 7), 1]
            self.assertEqual(echo.calls[:6], first)
            self.assertEqual(heard[:2], [{}, {"B0": 7, "B1": 20, "B2": 30}])
            self.assertEqual((heard[2]["B2"], heard[3]), (None, {"B0": 9, "B1": 7}))
            handed = [robus.HandIn(frame, "B1", 7) for frame in (1, 2, 3)]
            self.assertEqual([it for it in run.words if it.node == "B1"], handed)
            self.assertEqual([it.state for it in run.ports if it.node == "B0"], [10, 7, 8, 9])

    def test_wrong_controllers(self):
        for controllers in ({"B0": 5}, {"R0": max}, {"B7": lambda frame, heard: 1},
                            {"B0": lambda frame, heard: 1.5}, {"B0": lambda frame, heard: -1}):
            self.assertRaises(robus.BadArgument, robus.simulate, LATE, controllers)
        with self.assertRaises(robus.BadArgument) as caught:
            robus.simulate(LATE, {"B0": lambda frame, heard: 1 << 31 + frame // 2})
        why = "B0 in frame 2: word: 4294967296 is no integer from 0 to 4294967295"
        self.assertEqual(str(caught.exception), why)
        with self.assertRaises(robus.BadArgument) as caught:
            robus.simulate(SILENT, {"B0": lambda frame, heard: 1}, words=[(0, "B0", 1)])
        why = "B0 has more than one of a controller, words and letters"
        self.assertEqual(str(caught.exception), why)

    def test_floats(self):
        for number, word in FLOATS:
            self.assertEqual(robus.float_word(number), word)
            self.assertEqual(robus.float_word(robus.word_float(word)), word)
        self.assertEqual(robus.word_float(0x3DCCCCCD), 0.10000000149011612)
        for number in (1e39, "1", None):
            self.assertRaises(robus.BadArgument, robus.float_word, number)
        self.assertRaises(robus.BadArgument, robus.word_float, 1 << 32)


class PitchLoop:
    """The software and the airframe of examples/c/loop.c, and what that program counts."""

    def __init__(self):
        self.pitch, self.rate, self.elevator, self.worst = 0.1, 0.0, 0.0, 0.0
        self.before = 0  # when the frame before began
        self.heard = {f"B{number}": [0] * 4 for number in range(4)}
        self.past = dict.fromkeys(self.heard, 0)
        self.handed = {}
        self.slots = self.alike = self.good = self.as_given = 0

    def deliver(self, slot: robus.Slot) -> None:
        """Keeps the words, and counts them."""
        words = {it.word for it in slot.deliveries}
        is_good = slot.sender in [it.receiver for it in slot.deliveries]
        self.slots += 1
        self.alike += len(words) == 1
        self.good += is_good
        self.as_given += is_good and words == {self.handed[slot.sender]}
        for it in slot.deliveries:
            if it.word is not None:
                signed = it.word - (it.word >> 31 << 32)
                self.heard[it.receiver][int(it.sender[1:])] = signed

    def begin(self, frame: robus.Frame, bus: robus.Bus) -> None:
        """The airframe flies, the elevator moves, and each good BIU is handed its word."""
        time = frame.epochs[0].time
        seconds, self.before = (time - self.before) * 1e-9, time
        for _ in range(10):
            self.rate += (6 * self.pitch - self.rate - 12 * self.elevator) * seconds / 10
            self.pitch += self.rate * seconds / 10
        self.elevator = median(self.heard["B0"][1:]) * 1e-6
        self.rate += 0.5 if frame.frame == 400 else 0
        self.worst = max(self.worst, self.pitch) if frame.frame >= 400 else 0.0
        for node in frame.good:
            self.handed[node] = self.word(node, frame.frame, seconds) % 2**32
            bus.hand(node, self.handed[node])

    def word(self, node: str, frame: int, seconds: float) -> int:
        """The word of a BIU."""
        if node == "B0":
            return int(self.pitch * 1e6)
        if frame == 0:
            return 0
        here, past = self.heard[node][0], self.past[node]
        self.past[node] = here
        return int(1.5 * here + 0.4 * ((here - past) / seconds))


class Loops(unittest.TestCase):
    """Closed loops, whose numbers are those of the same loop without a bus."""

    @needs_library
    def test_the_loop_of_the_c_example(self):
        """The numbers that tests/c/run expects of examples/c/loop.c."""
        loop = PitchLoop()
        with robus.Bus(LOOP, engine=LIBRARY) as bus:
            for record in bus:
                if isinstance(record, robus.Frame):
                    loop.begin(record, bus)
                elif isinstance(record, robus.Slot) and record.deliveries:
                    loop.deliver(record)
        self.assertEqual(record, robus.Ended(800))
        self.assertEqual((loop.slots, loop.alike, loop.good, loop.as_given),
                         (3200, 3200, 2600, 2600))
        self.assertEqual((f"{loop.worst:.4f}", f"{abs(loop.pitch):.4f}"), ("0.0631", "0.0000"))

    @needs_library
    def test_flight_control(self):
        with mock.patch.object(sys, "path", [str(EXAMPLES / "python"), *sys.path]):
            import flight_control as example
        out = io.StringIO()
        with tempfile.TemporaryDirectory() as folder:
            plot = Path(folder, "plot.svg")
            with mock.patch.object(sys, "argv", ["", str(plot)]), contextlib.redirect_stdout(out):
                example.main()
            drawn = plot.read_text(encoding="utf-8")
        self.assertEqual(out.getvalue().splitlines(), [
            "ended after 800 frames; convicted: B1",
            "B3 delivers no word of B2 in 600 frames",
            "over the bus: at most 0.0631 rad after the gust, 0.0000 rad at the end",
            "without its vote: at most 0.0631 rad after the gust, -0.6434 rad at the end",
            "the pitch over the bus is that of a loop without a fault: True"])
        self.assertEqual(drawn, (TOP / "docs/flight_control.svg").read_text(encoding="utf-8"))


class Page(unittest.TestCase):
    """What docs/COSIMULATION.md shows of tools."""

    page = (TOP / "docs/COSIMULATION.md").read_text(encoding="utf-8")

    def test_plans(self):
        words = re.search(r"\$ tools/plan (.*)", self.page)[1]
        lines = re.findall(r"^    (a frame has .*|good nodes begin .*)$", self.page, re.M)
        out = output_of("plan", words.split())[1].splitlines()
        self.assertEqual((len(lines), lines), (2, out[-2:]))
        for more in ("--slots 12", "--rate 4MHz", "--rate 10MHz"):
            out = output_of("plan", [*words.split(), *more.split()])[1]
            time = re.search(r"a frame has .* \((.* ms)\)", out)[1]
            self.assertIn(time, self.page)

    def test_words_without_a_program(self):
        table = "".join(re.findall(r"^    ((?:frame,node,word|\d+,B\d,\d+)\n)", self.page, re.M))
        self.assertEqual(table.splitlines()[0], HEADER.strip())
        commands = re.findall(r"^    tools/(simulate|explain) examples/(.*)$", self.page, re.M)
        with tempfile.TemporaryDirectory() as folder:
            Path(folder, "words.csv").write_text(table)
            for tool, words in commands:
                if "letter" not in words or LIBRARY is RUNNERS[0]:
                    path, *rest = words.replace("words.csv", str(Path(folder, "words.csv"))).split()
                    status, out = output_of(tool, [EXAMPLES / path, *rest])
                    self.assertEqual(status, 0, words)
                    self.assertRegex(out, "d 2 3 B1 B0 6|d 3 4 B1 B0 16777218|B0 +6 ")
        self.assertEqual(len(commands), 3)


class Tables(unittest.TestCase):
    def setUp(self):
        self.folder = tempfile.TemporaryDirectory()
        self.addCleanup(self.folder.cleanup)
        self.table = Path(self.folder.name, "words.csv")

    def test_a_run_is_repeated_from_its_words(self):
        run = robus.simulate(SILENT, {"B0": lambda frame, heard: 5 + frame,
                                      "B3": lambda frame, heard: heard.get("B0")})
        run.write_words(self.table)
        self.assertEqual(self.table.read_text(), HEADER + "0,B0,5\n1,B0,6\n1,B3,5\n")
        again = robus.simulate(SILENT, words=self.table)
        self.assertEqual((again.output, again.words), (run.output, run.words))
        status, out, said = ending_of("simulate", [SILENT, "--words", self.table])
        self.assertEqual((status, out), (0, run.text))
        self.assertEqual(said, f"tools/simulate: run by {run.engine}\n"
                               "tools/simulate: status 0: the run came to its end\n")
        rows = [(0, "B0", 5), (1, "B0", 6), (1, "B3", 5)]
        self.assertEqual(robus.simulate(SILENT, words=rows).output, run.output)

    def test_explain_knows_the_words(self):
        self.table.write_text(HEADER + "0,B0,77\n")
        tool = ending_of("explain", [SILENT, 0, 4, "--words", self.table])[1]
        for out in (robus.explain(SILENT, 0, 4, words=self.table), tool):
            self.assertRegex(out, r"\n  B0 +77 ")
            self.assertIn("B0 77 at tick", out)
        longer = robus.Scenario.read(SILENT).with_("frames", 2)
        said = robus.explain(longer, 0, 4, letters=["0:B0:6869"])
        self.assertRegex(said, r"\n  B0 +16777218 ")
        self.assertRegex(robus.explain(SILENT, 0, 4), r"\n  B0 +10 ")

    def test_wrong_tables(self):
        for text, why in WRONG_TABLES.items():
            self.table.write_text(text)
            self.assertEqual(ending_of("simulate", [SILENT, "--words", self.table]),
                             (2, "", f"tools/simulate: {self.table}{why}\n"))
        for words, why in WRONG_WORDS:
            with self.assertRaises(ValueError) as caught:
                robus.simulate(SILENT, words=words)
            self.assertEqual(str(caught.exception), why)


class Letters(unittest.TestCase):
    def test_spelling(self):
        """The example of docs/robus.md, and letters of each length beside its rule."""
        self.assertEqual(letter_words(b"hi"), [16777218, 40397056])
        for length in range(1, 256):
            letter = bytes(range(1, length + 1))
            first, *others = letter_words(letter)
            self.assertEqual((first, len(others)), (16777216 + length, -(-length // 3)))
            spelled = b"".join((word - 33554432).to_bytes(3, "big") for word in others)
            self.assertEqual(spelled, letter + bytes(3 * len(others) - length))

    def test_letters_are_delivered_word_by_word(self):
        longer = robus.Scenario.read(SILENT).with_("frames", 8)
        run = robus.simulate(longer, letters=["1:B0:68656c6c6f", (0, "B1", b"a"), "3:B1:62"])
        words = {node: [it.word for it in run.deliveries if it.receiver == "B3"
                        and it.sender == node] for node in ("B0", "B1", "B2")}
        self.assertEqual(words["B0"], [10, *letter_words(b"hello"), 0, 0, 0, 0])
        self.assertEqual(words["B1"], [*letter_words(b"a"), 0, *letter_words(b"b"), 0, 0, 0])
        self.assertEqual(words["B2"], [30] * 8)

    def test_a_letter_is_cut_off_as_its_biu_fails(self):
        late = robus.Scenario.read(LATE).with_("requests", [1, 1, 1])
        run = robus.simulate(late, letters=["0:B2:68656c6c6f"])
        words = [it.word for it in run.deliveries if it.receiver == "B0" and it.sender == "B2"]
        self.assertEqual(words, [letter_words(b"hello")[0], None])
        with self.assertRaises(robus.BadArgument):
            robus.simulate(late, letters=["2:B2:68656c6c6f"])

    def test_letters_that_cannot_be_sent(self):
        for letters, why in WRONG_LETTERS:
            with self.assertRaises(robus.BadArgument) as caught:
                robus.simulate(SILENT, letters=letters)
            self.assertEqual(str(caught.exception), why)
        status, out, said = ending_of("simulate", [LATE, "--letter", "0:B0:6869"])
        self.assertEqual((status, out), (2, ""))
        self.assertIn("letters: B0 has more than one data slot in a frame", said)


if __name__ == "__main__":
    unittest.main()
