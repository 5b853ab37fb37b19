"""The package as `pip install ./python` installs it: a wheel from python/backend.py, which fetches
nothing."""
import base64
import csv
import hashlib
import io
import subprocess
import sys
import tempfile
import unittest
import zipfile
from importlib.machinery import SourceFileLoader
from importlib.util import module_from_spec, spec_from_loader
from pathlib import Path

from helpers import EXAMPLES, TOP


class Wheel(unittest.TestCase):
    def test_what_is_in_it(self):
        loader = SourceFileLoader("backend", str(TOP / "python/backend.py"))
        backend = module_from_spec(spec_from_loader("backend", loader))
        loader.exec_module(backend)
        with tempfile.TemporaryDirectory() as folder:
            wheel = zipfile.ZipFile(Path(folder, backend.build_wheel(folder)))
            names = wheel.namelist()
            for path in (TOP / "python/robus").rglob("*.*"):
                if "__pycache__" not in path.parts:
                    self.assertIn(str(path.relative_to(TOP / "python")), names)
            text = wheel.read("robus-1.0.dist-info/RECORD").decode()
            record = list(csv.reader(io.StringIO(text)))
            self.assertEqual([it[0] for it in record], names)
            for name, digest, length in record[:-1]:
                text = wheel.read(name)
                digested = base64.urlsafe_b64encode(hashlib.sha256(text).digest())
                found = digested.rstrip(b"=").decode()
                self.assertEqual((digest, length), ("sha256=" + found, str(len(text))))
            wheel.extractall(folder)
            scenario = str(EXAMPLES / "one_silent_rmu.toml")
            words = f"import robus; print(robus.run({scenario!r}, engine='model').convicted)"
            done = subprocess.run([sys.executable, "-c", words], cwd=folder, capture_output=True,
                                  text=True)
            self.assertEqual((done.stdout, done.stderr), ("('R2',)\n", ""))


if __name__ == "__main__":
    unittest.main()
