#!/usr/bin/env python3
"""Tests that the completions and the manual page of cti-file name the options that it takes, and no others."""
import re
import unittest
from pathlib import Path

top = Path(__file__).resolve().parent.parent
TAKEN = set(re.findall(r"(?m)^(?:value|flag)\('?([a-z-]+)'?,", (top / "swi/cti-file").read_text()))
PLACES = {
    "completions/cti-file.bash": r"--([a-z][a-z-]*)",
    "completions/_cti-file": r"(?m)^ +'\S*?--([a-z-]+)=?\[|^ +'\([^)]*\)--([a-z-]+)\[",
    "completions/cti-file.fish": r" -l ([a-z-]+)",
    "man/cti-file.1": r"--([a-z][a-z-]*)",
}


class Options(unittest.TestCase):
    def test_each_place_names_the_options_that_are_taken(self):
        self.assertIn("ask", TAKEN)
        for name, form in PLACES.items():
            with self.subTest(name):
                found = re.findall(form, (top / name).read_text().replace("\\-", "-"))
                self.assertEqual(TAKEN, {"".join(option) for option in found})


if __name__ == "__main__":
    unittest.main()
