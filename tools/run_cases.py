#!/usr/bin/env python3
"""Runs the commands of crates/cases/data/cases with a built program, and compares status and output with what is
wanted there. The gate runs the same rows within the proved crate `cases`; here they go through the program's `main`.

usage: tools/run_cases.py [PROGRAM [OTHER]]

PROGRAM is bin/cti where none is named. With a second one, what both write on standard output has to be the same too.
The head of crates/cases/src/main.rt says what the first byte of a line of the file means.
"""
import re
import subprocess
import sys
import tempfile
from concurrent.futures import ThreadPoolExecutor
from pathlib import Path

top = Path(__file__).resolve().parent.parent
ROWS = top / "crates" / "cases" / "data" / "cases"
SECONDS = 120


class Case:
    """A command with the files that it may load, and what is wanted of it."""

    def __init__(self, files, words, only, status):
        self.files, self.words, self.only, self.status = dict(files), words, only, status
        self.wanted = b""

    def answer(self, program):
        """The status of the command, and all that it writes on standard output."""
        with tempfile.TemporaryDirectory(prefix="cti-case-") as folder:
            for name, text in self.files.items():
                # A row that asks for another file has to find none.
                if name in self.words:
                    Path(folder, name).write_bytes(text)
            done = subprocess.run([program, *self.words], cwd=folder, stdin=subprocess.DEVNULL, stdout=subprocess.PIPE,
                                  stderr=subprocess.DEVNULL, timeout=SECONDS)
        return str(done.returncode), done.stdout

    def counted(self, output):
        """The lines of an output that count."""
        return b"".join(line for line in lines(output) if line.startswith(self.only))


def lines(text):
    """The lines of a text, each with its newline, which alone ends one."""
    return re.findall(rb"[^\n]*\n|[^\n]+", text)


def changed(text, number, line):
    """A text with another line in the place of one, which is counted from 1."""
    return b"".join(line if n == number else old for n, old in enumerate(lines(text), 1))


def cases(rows):
    """The cases of the file, in its order."""
    files, words, only, purpose, text, found = {}, [], b"", None, b"", []

    def settle():
        if purpose and purpose[0] == "file":
            files[purpose[1]] = text
        elif purpose and purpose[0] == "change":
            name, base, number = purpose[1].split(" ")
            files[name] = changed(files[base], int(number), text)
        elif purpose:
            found[-1].wanted = text

    for row in lines(rows):
        kind, rest = row[:2], row[2:-1]
        if row[:1] == b"|":
            text += row[1:]
        elif row[:1] == b"!":
            text += row[1:-1]
        elif kind in (b": ", b"~ ", b"= ", b"$ ", b"@ "):
            settle()
            purpose, text = None, b""
            if kind == b"$ ":
                words.append(rest.decode())
            elif kind == b"@ ":
                only = rest
            elif kind == b"= ":
                found.append(Case(files, words, only, rest.decode()))
                words, only, purpose = [], b"", ("output",)
            else:
                purpose = ("file" if kind == b": " else "change", rest.decode())
    settle()
    return found


def faults(case, program, other):
    """What is otherwise than wanted, in lines."""
    status, output = case.answer(program)
    said = []
    if status != case.status or case.counted(output) != case.wanted:
        said += [f"wanted status {case.status}", case.wanted.decode(errors="replace")]
        said += [f"status {status}", case.counted(output).decode(errors="replace")]
    if other and case.answer(other) != (status, output):
        said += [f"{other} answers otherwise than {program}"]
    return [" ".join(["$ cti", *case.words]), *said] if said else []


def main():
    programs = [str(Path(word).resolve()) for word in sys.argv[1:3]] or [str(top / "bin" / "cti")]
    program, other = (programs + [None])[:2]
    found = cases(ROWS.read_bytes())
    with ThreadPoolExecutor(2) as pool:
        wrong = [said for said in pool.map(lambda case: faults(case, program, other), found) if said]
    for said in wrong:
        print("\n".join(said))
    print(f"{len(found)} cases, {len(wrong)} answered otherwise")
    return 1 if wrong else 0


if __name__ == "__main__":
    sys.exit(main())
