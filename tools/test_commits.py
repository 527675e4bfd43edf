#!/usr/bin/env python3
"""Tests of tools/commits.py, in a repository of a few commits."""
import subprocess
import tempfile
import unittest
from pathlib import Path

import commits

KNOWN = {"make", "docs", "simplex", "tableaux"}


class FirstLines(unittest.TestCase):
    def test_areas(self):
        self.assertEqual(commits.faults("simplex: rows have room", KNOWN), [])
        self.assertEqual(commits.faults("simplex, tableaux: rows have room", KNOWN), [])
        self.assertEqual(commits.faults("Rows have room", KNOWN), ["no crate or area"])
        self.assertEqual(commits.faults("rows: have room", KNOWN), ["no crate or area"])
        self.assertEqual(commits.faults("simplex, rows: have room", KNOWN), ["no crate or area"])
        self.assertEqual(commits.faults("simplex:rows", KNOWN), ["no crate or area"])

    def test_length(self):
        line = "docs: " + "x" * 66
        self.assertEqual(commits.faults(line, KNOWN), [])
        self.assertEqual(commits.faults(line + "x", KNOWN), ["73 characters"])
        self.assertEqual(commits.faults("x" * 73, KNOWN), ["no crate or area", "73 characters"])

    def test_names_of_paths(self):
        names = commits.names_in(["crates/old_crate/must-fail/row.edit", "HANDLES"])
        self.assertTrue({"old_crate", "must-fail", "row", "row.edit", "HANDLES"} <= names)


class Repository(unittest.TestCase):
    def setUp(self):
        self.folder = tempfile.TemporaryDirectory()
        self.top = Path(self.folder.name)
        self.git("init", "-q", "-b", "main")
        (self.top / "tools").mkdir()
        (self.top / "tools" / "commits.py").write_text(Path(commits.__file__).read_text())
        self.write("crates.txt", "# Numbers: rows.\nsimplex:\n")
        self.commit("Beginning")

    def tearDown(self):
        self.folder.cleanup()

    def git(self, *words):
        settings = ["user.name=a", "user.email=a@example.org", "commit.gpgsign=false", "tag.gpgsign=false"]
        options = [word for setting in settings for word in ("-c", setting)]
        subprocess.run(["git", "-C", str(self.top), *options, *words], check=True, capture_output=True)

    def write(self, name, text):
        (self.top / name).parent.mkdir(parents=True, exist_ok=True)
        (self.top / name).write_text(text)

    def commit(self, message):
        self.git("add", "-A")
        self.git("commit", "-q", "--allow-empty", "-m", message)

    def run_tool(self, *words):
        tool = str(self.top / "tools" / "commits.py")
        done = subprocess.run(["python3", "-B", tool, *words], capture_output=True, text=True)
        return done.returncode, done.stdout.splitlines()

    def test_all(self):
        self.write("crates/gone/src/lib.rt", "")
        self.commit("gone: a crate that crates.txt no longer has")
        self.write("docs/page.md", "")
        self.commit("page: what it says\n\nNo crate: in the body.")
        self.commit("simplex: a line")
        status, lines = self.run_tool()
        self.assertEqual(status, 1)
        self.assertEqual(len(lines), 2)
        self.assertRegex(lines[0], "^[0-9a-f]+ no crate or area: Beginning$")
        self.assertTrue(lines[1].startswith("1 of the last 4 commits have"))

    def test_after_a_tag_and_a_revision(self):
        self.git("tag", "v1")
        self.commit("tools: a line")
        status, lines = self.run_tool()
        self.assertEqual((status, len(lines)), (0, 1))
        self.assertTrue(lines[0].startswith("0 of 1 commits after v1 have"))
        self.commit("A line")
        self.assertEqual(self.run_tool("HEAD")[0], 0)
        status, lines = self.run_tool("--count", "HEAD~1")
        self.assertEqual((status, len(lines)), (1, 1))
        self.assertTrue(lines[0].startswith("1 of 1 commits after HEAD~1 have"))

    def test_words(self):
        self.assertEqual(self.run_tool("no_such_revision"), (1, []))
        self.assertEqual(self.run_tool("--all"), (1, []))

    def test_merges_are_passed_over(self):
        self.git("checkout", "-q", "-b", "other")
        self.commit("simplex: a line")
        self.git("checkout", "-q", "main")
        self.commit("tools: a line")
        self.git("merge", "-q", "--no-ff", "-m", "Merge other", "other")
        self.assertTrue(self.run_tool("HEAD~1")[1][-1].startswith("0 of 1 commits"))


if __name__ == "__main__":
    unittest.main()
