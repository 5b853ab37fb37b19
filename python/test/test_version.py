"""The version number stands in robus.__version__, and every other place has the same one."""
import re
import unittest

import robus
from helpers import TOP

PLACES = {
    "python/pyproject.toml": r'^version = "(.+)"$',
    "Makefile": r"\\nVersion: ([\d.]+)\\n",
    "crates/rb_top/src/pages.rt": r'"robus ([\d.]+)\\n"',
    "crates/rb_bridge_top/src/pages.rt": r'"robus_bridge ([\d.]+)\\n"',
    "crates/rb_picture/src/pages.rt": r'"robus_picture ([\d.]+)\\n"',
    "README.md": r"^Version ([\d.]+);",
    "CHANGELOG.md": r"^## ([\d.]+)$",
}


class Version(unittest.TestCase):
    def test_all_places_have_the_version_of_the_package(self):
        for path, pattern in PLACES.items():
            found = re.search(pattern, (TOP / path).read_text(encoding="utf-8"), re.MULTILINE)
            self.assertIsNotNone(found, f"{path} has no version number")
            self.assertEqual(found[1], robus.__version__, path)


if __name__ == "__main__":
    unittest.main()
