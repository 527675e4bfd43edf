#!/usr/bin/env python3
"""How many minutes of one processor the prover takes for each crate while a command runs. So docs/gate.md was measured.

Usage: tools/gate_minutes.py COMMAND..            (as tools/gate_minutes.py .ci/run)
       tools/gate_minutes.py --write COMMAND..    writes the minutes of the proofs into tools/crate_minutes.txt, too

Each process of the prover that the command started is looked at twice a second, and what it takes after the last look is not counted. An
edit that has to be refused is known by the folder in which it is tried. Minutes are those of this machine, with as many checks side by
side as there were; what was kept from earlier runs takes none.
"""
import collections
import os
import re
import subprocess
import sys
import time
from pathlib import Path

top = Path(__file__).resolve().parent.parent
TABLE = top / "tools" / "crate_minutes.txt"
TICKS = os.sysconf("SC_CLK_TCK")
# What the command and all that it starts have in their environments.
MARK = f"GATE_MINUTES={os.getpid()}"
CRATE = re.compile(rb"--crate-name\0([^\0]+)")
EDIT = re.compile(r"/rt-edit-[0-9]+-")


def process(folder):
    """What a process is known by, its crate, whether it tries an edit, and the seconds that it has taken; none for another program's, or
    another command's."""
    stat = (folder / "stat").read_text()
    name, fields = stat[stat.index("(") + 1:stat.rindex(")")], stat[stat.rindex(")") + 2:].split()
    if name != "rattle" or MARK.encode() not in (folder / "environ").read_bytes().split(b"\0"):
        return None
    crate = CRATE.search((folder / "cmdline").read_bytes())
    if not crate:
        return None
    is_edit = bool(EDIT.search(os.readlink(folder / "cwd")))
    # The process and the time at which it began: a number of a process is given again.
    return (folder.name, fields[19]), crate.group(1).decode(), is_edit, (int(fields[11]) + int(fields[12])) / TICKS


def look(seen):
    """Notes what each process of the prover has taken so far."""
    for folder in Path("/proc").iterdir():
        if folder.name.isdigit():
            try:
                found = process(folder)
            except (OSError, ValueError, IndexError):
                continue  # It ended meanwhile.
            if found:
                known, crate, is_edit, seconds = found
                seen[known] = crate, is_edit, seconds


def write(minutes):
    """Puts the minutes of crates in the place of those that tools/crate_minutes.txt has, in its scale: those that it has
    of the same crates together stay what they are. A crate that is no longer there goes."""
    lines = TABLE.read_text().splitlines()
    head, rows = [line for line in lines if line.startswith("#")], [line for line in lines if not line.startswith("#")]
    found = {name: float(number) for name, number in map(str.split, rows)}
    both = [name for name in minutes if name in found]
    scale = sum(found[name] for name in both) / sum(minutes[name] for name in both) if both else 1.0
    found.update({name: scale * number for name, number in minutes.items()})
    crates = [line.split(":")[0].strip() for line in (top / "crates.txt").read_text().splitlines() if ":" in line]
    TABLE.write_text("\n".join([*head, *(f"{name} {found[name]:.2f}" for name in crates if name in found)]) + "\n")


def main():
    words = sys.argv[1:]
    writes = words[:1] == ["--write"]
    words = words[writes:]
    if not words:
        sys.exit(__doc__.split("\n\n")[1])
    seen = {}
    run = subprocess.Popen(words, env={**os.environ, **dict([MARK.split("=")])})
    while run.poll() is None:
        look(seen)
        time.sleep(0.5)
    proofs, edits = collections.Counter(), collections.Counter()
    for crate, is_edit, seconds in seen.values():
        (edits if is_edit else proofs)[crate] += seconds / 60
    for title, minutes in (("proofs", proofs), ("edits", edits)):
        print(f"{title}: {sum(minutes.values()):.1f} minutes")
        for crate, count in minutes.most_common():
            print(f"  {count:6.2f} {crate}")
    if writes:
        write(proofs)
    sys.exit(run.returncode)


main()
