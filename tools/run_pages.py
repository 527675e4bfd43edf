#!/usr/bin/env python3
"""Runs the commands that README.md, docs/*.md and the manual page show, and compares what they print with what stands there.

Usage: tools/run_pages.py [PROGRAM]     (PROGRAM is bin/cti where none is named)

A command is a line of a block that begins with `$ `, up to the next one; the lines after it are its output, with standard error or without.
A line `..` there stands for any lines, and standard error may stand before the output or behind it. `$ cat FILE` of a file that is not there shows the file, and makes it. The commands of a page run one after
the other in one folder, beside the examples. Those of `cti-file` are left to swi/test_answers.pl, since their files stand in the page's text. Where SWI-Prolog is installed,
the queries of a block, lines that begin with `?- `, are asked at the top of the repository, and `true.` may be left out of their answers. What differs is printed, and then the status is 1.
"""
import os
import re
import shutil
import subprocess
import sys
import tempfile
from pathlib import Path

top = Path(__file__).resolve().parent.parent
SECONDS = 60


def blocks(path):
    """The blocks of a page, each as its lines."""
    text = path.read_text()
    if path.suffix == ".md":
        return [match[1].split("\n") for match in re.finditer(r"^ *```\n(.*?)\n *```$", text, re.M | re.S)]
    plain = lambda block: block.replace("\\-", "-").replace("\\e", "\\").replace("\\&", "")
    return [plain(match[1]).split("\n") for match in re.finditer(r"^\.nf\n(.*?)\n\.fi$", text, re.M | re.S)]


def commands(block):
    """The commands of a block, each with the lines after it."""
    indent = min((len(line) - len(line.lstrip()) for line in block if line.strip()), default=0)
    found = []
    for line in (line[indent:] for line in block):
        if line.startswith("$ "):
            found.append((line[2:], []))
        elif found:
            found[-1][1].append(line)
    for _, shown in found:
        while shown and not shown[-1].strip():
            shown.pop()
    return found


def fits(shown, printed):
    """Whether the lines that are shown stand for those that were printed."""
    if not shown:
        return not printed
    if shown[0] == "..":
        return any(fits(shown[1:], printed[at:]) for at in range(len(printed) + 1))
    return bool(printed) and shown[0] == printed[0] and fits(shown[1:], printed[1:])


class Folder:
    def __init__(self, program):
        self.at = Path(tempfile.mkdtemp())
        bin_folder = self.at / ".bin"
        bin_folder.mkdir()
        (bin_folder / "cti").symlink_to(program)
        for path in (top / "examples").iterdir():
            (self.at / "examples").mkdir(exist_ok=True)
            shutil.copy(path, self.at / "examples")
            shutil.copy(path, self.at)
        self.seen = dict(os.environ, PATH=f"{bin_folder}:{os.environ['PATH']}", CTI=str(program))

    def run(self, command, errors):
        done = subprocess.run(["bash", "-c", command], cwd=self.at, env=self.seen, stdin=subprocess.DEVNULL, stdout=subprocess.PIPE,
                              stderr=errors, timeout=SECONDS)
        return done.stdout.decode().split("\n")[:-1]


def answers(lines):
    return [line.rstrip() for line in lines if line.strip() not in ("", "true.")]


def query_faults(path, program, block):
    """What SWI-Prolog answers otherwise to the queries of a block, and how many there are."""
    queries = [line[3:] for line in block if line.startswith("?- ")]
    if not queries or not shutil.which("swipl") or any("cti_file" in query for query in queries):
        return [], 0
    done = subprocess.run(["swipl", "-q"], cwd=top, env=dict(os.environ, CTI=str(program)), input="\n".join(queries) + "\n",
                          stdout=subprocess.PIPE, stderr=subprocess.STDOUT, text=True, timeout=SECONDS)
    shown, printed = answers(line for line in block if not line.startswith("?- ")), answers(done.stdout.split("\n"))
    if shown == printed:
        return [], len(queries)
    return ["\n".join([f"{path.name}: ?- ..", *(f"  shown:   {line}" for line in shown), *(f"  printed: {line}" for line in printed)])], len(queries)


def page_faults(path, program):
    """What is printed otherwise than a page shows, and how many commands were run."""
    folder, faults, count = Folder(program), [], 0
    for block in blocks(path):
        wrong, asked = query_faults(path, program, block)
        faults, count = faults + wrong, count + asked
        for command, shown in commands(block):
            words = command.split()
            if words[0] == "cat" and len(words) == 2 and shown and not (words[1].startswith("examples/")):
                (folder.at / words[1]).write_text("\n".join(shown) + "\n")
                continue
            if words[0] == "cti-file":
                continue
            count += 1
            printed = folder.run(command, subprocess.DEVNULL)
            with_errors = folder.run(command, subprocess.STDOUT)
            errors = folder.run(f"{{ {command}; }} 2>&1 >/dev/null", subprocess.DEVNULL)
            if not any(fits(shown, lines) for lines in [printed, with_errors, printed + errors]):
                faults.append("\n".join([f"{path.name}: $ {command}", *(f"  shown:   {line}" for line in shown), *(f"  printed: {line}" for line in with_errors[:40])]))
    shutil.rmtree(folder.at)
    return faults, count


def main():
    program = Path(sys.argv[1] if len(sys.argv) > 1 else top / "bin" / "cti").resolve()
    pages = [top / "README.md", *sorted((top / "docs").glob("*.md")), *sorted((top / "man").glob("*.1"))]
    ran, wrong = 0, 0
    for path in pages:
        faults, count = page_faults(path, program)
        ran, wrong = ran + count, wrong + len(faults)
        for fault in faults:
            print(fault)
    print(f"{ran} commands, {wrong} print something else")
    return 1 if wrong else 0


if __name__ == "__main__":
    sys.exit(main())
