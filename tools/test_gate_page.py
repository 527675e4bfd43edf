#!/usr/bin/env python3
"""Tests that docs/gate.md's table of wrong edits names those that the gate tries, and no others."""
import re
import unittest
from pathlib import Path

top = Path(__file__).resolve().parent.parent


class Edits(unittest.TestCase):
    def test_each_edit_stands_once_beside_its_crate(self):
        rows = re.findall(r"(?m)^\| [^|]+ \| `(\w+)` \| (`.*`) \|$", (top / "docs/gate.md").read_text())
        named = [(crate, edit) for crate, edits in rows for edit in re.findall(r"`(\w+)`", edits)]
        tried = [(path.parts[-3], path.stem) for path in top.glob("crates/*/must-fail/*.edit")]
        self.assertEqual(sorted(tried), sorted(named))


if __name__ == "__main__":
    unittest.main()
