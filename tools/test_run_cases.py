#!/usr/bin/env python3
"""Tests of tools/run_cases.py, with a program of some lines in the place of cti."""
import os
import tempfile
import unittest
from pathlib import Path

import run_cases

ROWS = b"""# a comment
: a.pl
|one
|two
~ b.pl a.pl 2
|three
@ t
$ cat
$ b.pl
= 0
|three
: c.pl
!open
$ cat
$ c.pl
= 0
!open
$ cat
$ d.pl
= 1
"""


class CasesTest(unittest.TestCase):
    def setUp(self):
        self.folder = tempfile.TemporaryDirectory()
        self.program = str(Path(self.folder.name, "program"))
        self.write('exec "$@" 2> /dev/null')

    def tearDown(self):
        self.folder.cleanup()

    def write(self, line):
        Path(self.program).write_text(f"#!/bin/sh\n{line}\n")
        os.chmod(self.program, 0o755)

    def faults(self, other=None):
        return [run_cases.faults(case, self.program, other) for case in run_cases.cases(ROWS)]

    def test_rows_are_read(self):
        found = run_cases.cases(ROWS)
        self.assertEqual([case.words for case in found], [["cat", "b.pl"], ["cat", "c.pl"], ["cat", "d.pl"]])
        self.assertEqual(found[0].files, {"a.pl": b"one\ntwo\n", "b.pl": b"one\nthree\n"})
        self.assertEqual([case.wanted for case in found], [b"three\n", b"open", b""])
        self.assertEqual([case.only for case in found], [b"t", b"", b""])

    def test_answers_as_wanted(self):
        self.assertEqual(self.faults(), [[], [], []])

    def test_other_output_is_a_fault(self):
        self.write("echo tail; exit 0")
        self.assertTrue(all(self.faults()))

    def test_other_status_is_a_fault(self):
        self.write('"$@"; exit 7')
        self.assertTrue(all(self.faults()))

    def test_programs_that_differ(self):
        other = str(Path(self.folder.name, "other"))
        Path(other).write_text('#!/bin/sh\necho other; "$@"\n')
        os.chmod(other, 0o755)
        self.assertTrue(all(said == [said[0], f"{other} answers otherwise than {self.program}"]
                            for said in self.faults(other)))


if __name__ == "__main__":
    unittest.main()
