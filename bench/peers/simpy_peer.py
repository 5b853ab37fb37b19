"""`robus stress SEED FRAMES` in SimPy. A node is a process that waits for its ticks, and a message
is a timeout. The nodes and the book are those of the second model (python/robus/second_model), so a
message is bytes. With a third word it prints the report of `robus run` on that scenario."""
import sys
from pathlib import Path

import simpy

sys.dont_write_bytecode = True
sys.path.insert(0, str(Path(__file__).resolve().parents[2] / "python"))
from robus.second_model import Site, World, generated, read_scenario, text_of  # noqa: E402


class Simulated(World):
    """A run of the second model in which SimPy keeps the time. A reference unit is two units of
    SimPy. Messages arrive at even times, and ticks are at odd ones, so a message that arrives at
    the time of a tick comes before it."""

    def __init__(self, seed: int, frames: int):
        self.env = simpy.Environment()
        self.over = self.env.event()
        super().__init__(read_scenario(generated(seed, frames)))
        for site in self.sites.values():
            self.env.process(self.live(site))

    def push(self, time, node, source, item):
        """Has a message arrive at a node at a time. The process of the node waits for its ticks."""
        def arrive(_):
            if self.sites[node].is_running():
                self.sites[node].arrive(time, source, item)
                self.arrivals.setdefault((node, source), time)

        if isinstance(item, bytes):
            self.env.timeout(2 * time - self.env.now).callbacks.append(arrive)

    def live(self, site: Site):
        """The process of a node, which has each tick at which something happens."""
        while site.is_running():
            tick = site.core.next_busy()
            time = site.clock.time_of(tick)
            yield self.env.timeout(2 * time + 1 - self.env.now)
            self.proceed(site, time, tick)
            self.settle()
        if self.ended and not self.over.triggered:
            self.over.succeed()


run = Simulated(int(sys.argv[1]), int(sys.argv[2]))
run.env.run(until=run.over)
numbers = {"frames": sys.argv[2], "deliveries": run.deliveries, "convicted": sum(run.convicted),
           "spread": run.spread}
lines = run.lines if len(sys.argv) > 3 else [f"{name} {it}" for name, it in numbers.items()]
sys.stdout.buffer.write(text_of(lines))
sys.exit(1 if run.breach else 0)
