"""The model in SimPy (bench/peers) writes what the second model of the bus writes."""
import subprocess
import sys
import unittest

from helpers import TOP, run_model

sys.path.insert(0, str(TOP / "bench/peers"))
from common import with_simpy  # noqa: E402


@unittest.skipUnless(with_simpy(), "no Python here has SimPy (Debian's python3-simpy3)")
class SimPy(unittest.TestCase):
    def written(self, *words: str) -> str:
        return subprocess.run([*with_simpy(), *words], capture_output=True, text=True).stdout

    def test_it_is_the_second_model(self):
        for case in (("7", "2"), (str(2**64 - 1), "3")):
            self.assertEqual(self.written(*case), run_model("stress", *case, data=b""))
            report = run_model("run", data=run_model("gen", *case, data=b"").encode())
            self.assertEqual(sorted(self.written(*case, "run").splitlines()),
                             sorted(report.splitlines()))


if __name__ == "__main__":
    unittest.main()
