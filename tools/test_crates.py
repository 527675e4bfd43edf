#!/usr/bin/env python3
"""Tests of tools/crates.py, on a map of five crates."""
import contextlib
import tempfile
import unittest
from pathlib import Path
from unittest import mock

import crates

LIST = """# Low: what stands below.
names:
rows: names

# Middle: what stands on it.
solver: rows names kit_library
reader: names

# High: the program.
program: solver reader names rows
"""
MINUTES = "# minutes\nnames 1.0\nrows 2.2\nsolver 4.4\nprogram 8.0\n"
PAGE = """# Map

```
High
Middle
Low
```

`rows/src/lib.rt` and `table` of `solver`

<!-- made by tools/crates.py --write: crates -->
<!-- end of crates -->

<!-- made by tools/crates.py --write: dependencies -->
<!-- end of dependencies -->
"""


class MapTest(unittest.TestCase):
    def setUp(self):
        self.stack = contextlib.ExitStack()
        self.top = Path(self.stack.enter_context(tempfile.TemporaryDirectory()))
        self.page = self.top / "docs" / "architecture.md"
        for name, value in {"top": self.top, "page": self.page, "PAGES": [self.page]}.items():
            self.stack.enter_context(mock.patch.object(crates, name, value))
        self.write("crates.txt", LIST)
        self.write("tools/crate_minutes.txt", MINUTES)
        self.write("docs/architecture.md", PAGE)
        for name, needs in crates.listed()[1].items():
            self.write(f"crates/{name}/src/lib.rt", "".join(f"use {other}::table;\n" for other in needs))

    def tearDown(self):
        self.stack.close()

    def write(self, name, text):
        (self.top / name).parent.mkdir(parents=True, exist_ok=True)
        (self.top / name).write_text(text)

    def make(self):
        """Writes the page, and fills in what is written by hand."""
        self.page.write_text(crates.made(self.page.read_text(), *crates.listed()))
        self.page.write_text(self.page.read_text().replace("| ? | ? |", "| does it | none |"))

    def change(self, old, new):
        text = self.page.read_text()
        self.assertIn(old, text)
        self.page.write_text(text.replace(old, new))

    def faults(self):
        return list(crates.faults(self.page.read_text(), *crates.listed()))

    def test_listed(self):
        groups, needs = crates.listed()
        self.assertEqual(groups[1], ("Middle", "what stands on it", ["solver", "reader"]))
        self.assertEqual(needs["solver"], ["rows", "names", "kit_library"])

    def test_made_once_is_made(self):
        self.make()
        self.assertEqual(self.faults(), [])
        before = self.page.read_text()
        self.make()
        self.assertEqual(self.page.read_text(), before)
        self.assertIn("### Middle\n\nWhat stands on it.\n\n| Crate |", before)

    def test_costs(self):
        # Above names stand all, above rows the solver and the program; the reader was not measured.
        _, needs = crates.listed()
        self.assertEqual(crates.costs(needs), {"names": 16, "rows": 15, "solver": 12, "reader": 8, "program": 8})

    def test_floors_and_nearest(self):
        _, needs = crates.listed()
        self.assertEqual(crates.floors(needs), {"names": 0, "rows": 1, "solver": 2, "reader": 1, "program": 3})
        self.assertEqual(crates.nearest(needs)["program"], ["solver", "reader"])
        self.assertEqual(crates.nearest(needs)["solver"], ["rows", "kit_library"])

    def test_a_crate_without_words(self):
        self.page.write_text(crates.made(PAGE, *crates.listed()))
        self.assertEqual(len([fault for fault in self.faults() if "no row says" in fault]), 5)

    def test_minutes_may_be_a_little_off(self):
        self.make()
        self.change("| none | 16 |", "| none | 17 |")
        self.assertEqual(self.faults(), [])
        self.change("| none | 17 |", "| none | 18 |")
        self.assertEqual(self.faults(), ["names: its minutes are old: tools/crates.py --write"])

    def test_old_rows(self):
        self.make()
        one_group_less = LIST.replace("# Middle: what stands on it.\n", "")
        self.write("crates.txt", one_group_less.replace("reader: names\n", "reader: names rows\n"))
        self.write("crates/reader/src/lib.rt", "use names::table;\nuse rows::table;\n")
        self.assertIn("docs/architecture.md is not what crates.txt gives: tools/crates.py --write", self.faults())

    def test_a_row_of_no_crate(self):
        self.make()
        self.change("| `reader` | does it", "| `writer` | does it")
        found = self.faults()
        self.assertIn("reader: no row says what it does and which contract is used above", found)
        self.assertIn("writer: a row, and no line in crates.txt", found)

    def test_order(self):
        _, needs = crates.listed()
        turned = dict(reversed(needs.items()))
        self.assertIn("crates.txt: reader stands before names, on which it depends", list(crates.order_faults(turned)))

    def test_drawing(self):
        self.make()
        self.change("High\nMiddle\nLow\n```", "High\nLow\nMiddle\n```")
        self.assertEqual(self.faults(), ["the drawing of the groups has Middle, which stands on Low, not above it"])
        self.change("High\nLow", "Low")
        self.assertIn("the drawing of the groups has no High", self.faults())

    def test_names(self):
        self.make()
        self.change("`rows/src/lib.rt`", "`rows/src/old.rt`, `old.rt` of `rows`, `lib.rt` of `rows`")
        self.change("`table`", "`old_table`")
        self.change("Low\n```", "Low ─ old_word\n```")
        self.assertEqual(self.faults(), [
            "docs/architecture.md: there is no file rows/src/old.rt",
            "docs/architecture.md: there is no file old.rt",
            "docs/architecture.md: nothing is named old_table",
            "docs/architecture.md: nothing is named old_word, which is drawn",
        ])

    def test_unnamed_dependencies(self):
        self.make()
        self.write("crates/program/src/lib.rt", "use solver::table;\nuse reader::table;\nuse names::table;\n")
        self.assertEqual(self.faults(), ["program: rows is named by none of its files"])


if __name__ == "__main__":
    unittest.main()
