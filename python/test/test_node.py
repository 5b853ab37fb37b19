"""Node cores from Python: seven of them on a bus with clocks and delays of its own, refusals, and
bytes of any kind."""
import random
import unittest

import robus
from helpers import EXAMPLES
from robus import engines
from robus.node import calls_of

SILENT = EXAMPLES / "one_silent_rmu.toml"
NAMES = ("B0", "B1", "B2", "B3", "R0", "R1", "R2")


def has_cores() -> bool:
    """Whether a library with node cores is there."""
    found = engines.library()
    return found is not None and calls_of(found.path) is not None


def deliveries_of(nodes: dict, silent: str, words: dict) -> list:
    """What the BIUs of a bus deliver in frame 0, by slot and receiver. Node number i has its tick k
    at 700 i + k (9999 + i mod 3)."""
    number = {name: i for i, name in enumerate(nodes)}
    time = lambda name, tick: 700 * number[name] + tick * (9999 + number[name] % 3)
    flying, found, begun = [], [], set()
    while len(begun) < len(nodes):
        name = min(nodes, key=lambda it: time(it, nodes[it].next_tick()))
        node = nodes[name]
        at = time(name, node.next_tick())
        if flying and min(flying)[0] <= at:
            came, to, source, data = min(flying)
            flying.remove((came, to, source, data))
            stamp = max(0, -(-(came - time(to, 0)) // (time(to, 1) - time(to, 0))))
            nodes[to].pass_(max(0, stamp - nodes[to].had))
            nodes[to].arrive(source, data)
            continue
        node.pass_(node.next_tick() - node.had)
        want = node.wants()
        act = node.tick({None: 0, "request": 1}.get(want, words.get(name, 0)))
        if act.message and name != silent:
            flying += [(at + 6000 + 1000 * ((3 * number[name] + 5 * number[to]) % 9), to, name, act.message)
                       for to in nodes if to[0] != name[0]]
        if act.delivery:
            found.append(act.delivery)
        if act.epoch and act.epoch.frame == 1:
            begun.add(name)
    return sorted((it for it in found if it.frame == 0), key=lambda it: (it.slot, it.receiver))


@unittest.skipUnless(has_cores(), "no librobus.so with node cores is there")
class Cores(unittest.TestCase):
    def test_a_bus_of_cores_delivers_what_a_run_does(self):
        nodes = {name: robus.Node(SILENT, name) for name in NAMES}
        found = deliveries_of(nodes, "R2", {"B0": 10, "B1": 20, "B2": 30, "B3": 40})
        self.assertEqual(found, list(robus.run(SILENT).deliveries))
        self.assertEqual(len(found), 16)
        for node in nodes.values():
            node.close()

    def test_the_page(self):
        """The lines of docs/LIBRARY.md."""
        node = robus.Node(SILENT, "B0")
        self.assertEqual(node.tick(), robus.Act(None, False, robus.Epoch(0, 0, ()), None))
        self.assertEqual((node.next_tick(), node.pass_(5), node.wants()), (6, 5, "request"))
        self.assertEqual(node.tick(1).message.hex(), "0100000000010000000101")
        node.arrive("R0", b"")

    def test_the_silent_node_is_convicted(self):
        nodes = {name: robus.Node(SILENT, name) for name in NAMES}
        acts, tick = [], nodes["B0"].tick
        nodes["B0"].tick = lambda word=0: acts.append(tick(word)) or acts[-1]
        deliveries_of(nodes, "R2", {})
        self.assertEqual([it.epoch.convicted for it in acts if it.epoch], [(), ("R2",)])

    def test_refusals(self):
        scenario = robus.Scenario.from_dict(dict(biu=4, rmu=3, slots=8, frames=1))
        for changed, name, number in ((scenario, "B4", 12), (scenario.with_("biu", 17), "B0", 11), (scenario.with_("plan.l", 0), "B0", 13),
                                      (scenario.with_("plan.h", 5), "R0", 21)):
            with self.assertRaises(robus.NoNode) as refused:
                robus.Node(changed, name)
            self.assertEqual(refused.exception.number, number)
        self.assertEqual(refused.exception.inequality, 1)
        with self.assertRaises(ValueError):
            robus.Node(scenario, "X0")

    def test_any_bytes_come(self):
        draw = random.Random(5)
        with robus.Node(SILENT, "B0") as node, robus.Node(SILENT, "B0") as quiet:
            for _ in range(500):
                node.arrive(draw.randrange(256), draw.randbytes(draw.randrange(20)))
                self.assertEqual(node.next_tick(), quiet.next_tick())
                node.tick(7), quiet.tick(7)
        self.assertEqual(node.tick(), robus.Act(None, False, None, None))


if __name__ == "__main__":
    unittest.main()
