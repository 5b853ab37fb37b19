"""Traces of runs: what tools/trace writes, and what tshark makes of it where it is there."""
import shutil
import struct
import subprocess
import tempfile
import unittest
from pathlib import Path

from helpers import EXAMPLES, TOP, ending_of
from robus.model import model

TWO_SIDED = EXAMPLES / "two_sided.toml"
LUA = TOP / "share/wireshark/robus.lua"
# Bus 5 with messages of version 2. B1 says four bytes to R0, and to R1 the word 7 one slot late
GARBAGE = b"""biu = 3
rmu = 2
slots = 2
frames = 1
words = [10, 20, 30]
version = 2
bus = 5
[[fault]]
node = "B1"
frame = 0
slot = 4
[[say]]
from = "B1"
to = "R0"
frames = [0, 0]
slots = [4, 4]
stages = [1, 1]
raw = "deadbeef"
[[say]]
from = "B1"
to = "R1"
frames = [0, 0]
slots = [5, 5]
stages = [1, 1]
raw = "010000000401000000070506"
"""


def traced(words: list, data: bytes = b"") -> tuple[int, bytes]:
    """The status of tools/trace with `FILE` for a file of these words, and what is in the file."""
    with tempfile.TemporaryDirectory() as folder:
        path = Path(folder, "trace")
        status = ending_of("trace", [path if it == "FILE" else it for it in words], data)[0]
        return status, path.read_bytes() if path.exists() else b""


def blocks_of(capture: bytes) -> list[tuple[int, bytes]]:
    """The blocks of a file of pcapng: type and body."""
    found, at = [], 0
    while at < len(capture):
        kind, length = struct.unpack_from("<II", capture, at)
        assert capture[at + length - 4 : at + length] == struct.pack("<I", length)
        found.append((kind, capture[at + 8 : at + length - 4]))
        at += length
    return found


def packets_of(capture: bytes) -> list[tuple[int, int, bytes]]:
    """The packets of a file of pcapng: interface, time, and bytes."""
    found = []
    for kind, body in blocks_of(capture):
        if kind == 6:
            interface, high, low, length = struct.unpack_from("<IIII", body)
            found.append((interface, high << 32 | low, body[20 : 20 + length]))
    return found


def logged(path: Path) -> list[tuple[int, bytes, int]]:
    """What the logs of a scenario say of messages: number of the receiver, bytes, and tick."""
    scenario, found = model.read_scenario(path.read_bytes()), []
    for number, node in enumerate(scenario.bus.nodes()):
        _, log = model.program.do_record(path.read_bytes(), node)
        reader, tick = model.LogReader(log), 0
        reader.header()
        for kind, first, second in reader.records(16):
            if kind == "came":
                found.append((number, second, tick))
            else:
                tick += first
    return found


class Capture(unittest.TestCase):
    def test_a_packet_for_each_message_of_the_logs(self):
        for name in ("two_sided", "late_onset", "late_message", "greatest_drift"):
            path = EXAMPLES / f"{name}.toml"
            _, capture = traced([path, "--pcap", "FILE"])
            found = [(at, data[22:], int.from_bytes(data[18:22]))
                     for at, _, data in packets_of(capture)]
            self.assertEqual(sorted(found), sorted(logged(path)), name)

    def test_times_by_the_clocks_and_by_a_unit(self):
        # B0's request is sent at tick 6 and takes 10000 units, which is a tick
        cases = ([], 70000), (["--unit", "100ps"], 7000), (["--unit", "1us"], 7 * 10**7)
        for words, time in cases:
            status, capture = traced([TWO_SIDED, "--pcap", "FILE", *words])
            self.assertEqual((status, packets_of(capture)[0][1]), (1, time))

    def test_comments(self):
        _, capture = traced([EXAMPLES / "late_onset.toml", "--pcap", "FILE"])
        said = [b"B2 is convicted from frame 2 on" in body for kind, body in blocks_of(capture)
                if kind == 6]
        # The first message of frame 2, and no other, has the comment
        frames = [int.from_bytes(data[14:18]) for _, _, data in packets_of(capture)]
        self.assertEqual([i for i, it in enumerate(said) if it], [frames.index(2)])
        _, capture = traced([TWO_SIDED, "--pcap", "FILE"])
        self.assertIn(b"breach TwoSided at frame 0, slot 6, stage 2", blocks_of(capture)[-1][1])

    def test_frames(self):
        _, capture = traced([EXAMPLES / "late_onset.toml", "--pcap", "FILE", "--frames", "1:1"])
        self.assertEqual({data[14:18] for _, _, data in packets_of(capture)}, {bytes([0, 0, 0, 1])})
        status, _, said = ending_of("trace", [TWO_SIDED, "--pcap", "/dev/null", "--frames", "0:1"])
        self.assertEqual(status, 2)
        self.assertIn("--frames: '0:1' is no FIRST:LAST of the run's frames, 0:0\n", said)

    def test_what_is_refused(self):
        self.assertEqual(traced(["-", "--pcap", "FILE"], b"biu = 1\n"), (3, b""))
        self.assertEqual(ending_of("trace", [TWO_SIDED])[0], 2)
        self.assertEqual(ending_of("trace", [TWO_SIDED, "--pcap", "/no/folder/file"])[0], 2)


@unittest.skipUnless(shutil.which("tshark"), "tshark is not there")
class Dissector(unittest.TestCase):
    def shown(self, capture: bytes, filter_text: str, *fields: str) -> list[list[str]]:
        """The fields that tshark shows of the packets that a filter lets through."""
        with tempfile.TemporaryDirectory() as folder:
            path = Path(folder, "run.pcapng")
            path.write_bytes(capture)
            words = ["tshark", "-X", f"lua_script:{LUA}", "-r", path, "-T", "fields"]
            words += [it for name in fields for it in ("-e", name)]
            done = subprocess.run([*words, "-Y", filter_text], capture_output=True, text=True)
        self.assertEqual(done.returncode, 0, done.stderr)
        self.assertNotIn("Lua: Error", done.stderr)
        return [line.split("\t") for line in done.stdout.splitlines()]

    def test_the_liar(self):
        _, capture = traced([TWO_SIDED, "--pcap", "FILE"])
        rows = self.shown(capture, 'robus.slot == 5 && robus.from == "B1"', "robus.to",
                          "robus.purpose", "robus.stage", "robus.tag", "robus.value",
                          "robus.check_right", "robus.version", "robus.faulty")
        self.assertEqual(rows, [[f"R{i}", "data 1", "1", "1", word, "1", "1", "1"]
                                for i, word in ((0, "1"), (1, "2"), (2, "2"))])
        self.assertEqual(len(self.shown(capture, "robus", "robus.to")), len(logged(TWO_SIDED)))

    def test_garbage_and_version_2(self):
        _, capture = traced(["-", "--pcap", "FILE"], GARBAGE)
        fields = "robus.to", "robus.raw", "robus.window.slot", "robus.spells"
        rows = self.shown(capture, "robus.garbage", *fields)
        self.assertEqual(rows, [["R0", "deadbeef", "4", "0"]])
        fields = "robus.to", "robus.slot", "robus.window.slot", "robus.value", "robus.bus"
        rows = self.shown(capture, "robus.in_turn == 0", *fields)
        self.assertEqual(rows, [["R1", "4", "5", "7", "5"]])
        # The word 10 of B0 in frame 0, slot 3, stage 1: 01 ^ 03 ^ 01 ^ 0a ^ 05 is 0c
        fields = "robus.value", "robus.version", "robus.bus", "robus.check"
        rows = self.shown(capture, "robus.slot == 3 && robus.stage == 1", *fields)
        self.assertEqual(rows, [["10", "2", "5", "0x0c"]] * 2)


if __name__ == "__main__":
    unittest.main()
