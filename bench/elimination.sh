#!/usr/bin/env bash
# Times an elimination that leaves 4,096 rows (bounds: 1 second, 500 MB), and the solving of the 130 rows that leave too many
# and of one row more (bound: 2 seconds); and solving by pivots, of these rows with one and two rows more (bound: 20
# milliseconds each) and of 1,000 systems of 6 to 20 rows and columns (bound: 0.2 seconds).
# Usage: bench/elimination.sh [FOLDER], where FOLDER (default: a new one below /tmp) keeps the build for another run.
set -eu
cd "$(dirname "$0")/.."
driver=$(tools/elimination_driver.sh "${1:-$(mktemp -d)}")
python3 - "$driver" <<'PYTHON'
import random
import resource
import subprocess
import sys
import time


def table(count):
    rising = [(0, 1, i, 1) for i in range(1, count + 1)]
    return rising + [(0, -1, 100 * j, 0) for j in range(1, count + 1)]


def line(kind, rows, width=3):
    return " ".join(str(number) for number in [kind, width, 0] + [entry for row in rows for entry in row])


def systems(kind):
    """1,000 systems of the sizes and with the small numbers that sizes of lists give."""
    random.seed(1)
    for _ in range(1000):
        width, count = random.randint(6, 20), random.randint(6, 20)
        number = lambda: random.choice([-2, -1, -1, 1, 1, 2]) if random.random() < 0.3 else 0
        yield line(kind, [[number() for _ in range(width + 1)] for _ in range(count)], width)


def seconds_of(lines):
    """The processor time of a run, and what it says first."""
    before = resource.getrusage(resource.RUSAGE_CHILDREN)
    run = subprocess.run([sys.argv[1]], input="".join(each + "\n" for each in lines), capture_output=True, text=True)
    after = resource.getrusage(resource.RUSAGE_CHILDREN)
    return after.ru_utime + after.ru_stime - before.ru_utime - before.ru_stime, run.stdout.split("\n")[0][:20]


for name, text in [
    ("eliminate 128 rows", line(0, table(64))),
    ("eliminate 130 rows", line(0, table(65))),
    ("solve 130 rows and one more", line(1, table(65) + [(-1, 0, 0, 1)])),
]:
    begin = time.monotonic()
    run = subprocess.run([sys.argv[1]], input=text + "\n", capture_output=True, text=True)
    seconds = time.monotonic() - begin
    memory = resource.getrusage(resource.RUSAGE_CHILDREN).ru_maxrss // 1024
    answer = run.stdout.strip()
    said = f"{answer.count('|')} rows" if answer.startswith("rows") else answer
    print(f"{name}: {said}, {seconds:.2f} s, at most {memory} MB so far")
one_more, two_more = table(65) + [(-2, 0, 0, 1)], table(65) + [(-2, 0, 0, 1), (1, 0, 0, -1)]
for name, lines_of, count in [
    ("solve 131 rows by pivots", lambda kind: [line(kind, one_more)] * 100, 100),
    ("solve 132 rows by pivots", lambda kind: [line(kind, two_more)] * 100, 100),
    ("solve 1,000 systems by pivots", lambda kind: list(systems(kind)), 1),
]:
    solved, said = seconds_of(lines_of(2))
    read, _ = seconds_of(lines_of(3))
    print(f"{name}: {said} .., {1000 * (solved - read) / count:.2f} ms and {1000 * read / count:.2f} ms to read")
PYTHON
