#!/usr/bin/env python3
"""Tests of the archives of tools/dist.py."""
import hashlib
import os
import tempfile
import unittest
from pathlib import Path

import dist


class ArchiveTest(unittest.TestCase):
    def setUp(self):
        self.folder = tempfile.TemporaryDirectory()

    def tearDown(self):
        self.folder.cleanup()

    def stage(self, name, files, umask):
        """A folder with these files, the programs among them in bin/."""
        old = os.umask(umask)
        for file, text in files:
            path = Path(self.folder.name, name, file)
            path.parent.mkdir(parents=True, exist_ok=True)
            path.write_text(text)
            if file.startswith("bin/"):
                path.chmod(0o700 if umask else 0o755)
        os.umask(old)
        return Path(self.folder.name, name)

    def test_same_files_same_bytes(self):
        files = [("bin/cti", "program"), ("share/man/man1/cti.1", "page")]
        one = self.stage("one", files, 0o022)
        two = self.stage("two", reversed(files), 0o077)
        os.utime(two / "bin" / "cti", (1, 1))
        sums = {hashlib.sha256(dist.archive(it, "cti-1-x86_64-linux", 1000)).hexdigest() for it in (one, two)}
        self.assertEqual(len(sums), 1)

    def test_members(self):
        stage = self.stage("one", [("bin/cti", "program"), ("share/doc/cti/RELEASE", "text")], 0o022)
        self.assertEqual(dist.members(dist.archive(stage, "cti-1-x86_64-linux", 1000)),
                         {"bin/cti": (0o755, b"program"), "share/doc/cti/RELEASE": (0o644, b"text")})

    def test_newest_glibc(self):
        self.assertEqual(dist.newest_glibc(b"..GLIBC_2.4\0GLIBC_2.34\0GLIBC_2.2.5\0.."), "2.34")

    def test_differing(self):
        old = {"bin/cti": (0o755, b"program"), "page": (0o644, b"text"), "gone": (0o644, b"")}
        new = {"bin/cti": (0o755, b"Program"), "page": (0o644, b"text"), "script": (0o755, b"")}
        self.assertEqual(dist.differing(old, new), ["bin/cti", "gone", "script"])
        self.assertEqual(dist.differing(old, dict(old)), [])


if __name__ == "__main__":
    unittest.main()
