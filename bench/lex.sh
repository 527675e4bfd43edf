#!/usr/bin/env bash
# Times `cti lex`, outside the gate: Ackermann's function; a ring of 100 predicates that needs two mappings; twelve argument positions without a
# list that descends, with one list of twelve mappings, and with 64 minimal supports; and beside `cti infer` the examples, all of them together.
# Usage: bench/lex.sh [PROGRAM [PROGRAM.pl..]]     (PROGRAM is bin/cti where none is named; the programs are the examples where none is)
set -eu
cd "$(dirname "$0")/.."
program=$(realpath "${1:-bin/cti}")
[ $# -eq 0 ] || shift
[ $# -gt 0 ] || set -- examples/*.pl
folder=$(mktemp -d)
trap 'rm -rf "$folder"' EXIT

python3 - "$folder" <<'PYTHON'
import sys
from pathlib import Path

folder = Path(sys.argv[1])
places = range(12)


def clause(head, call):
    return f"p({','.join(head)}) :- p({','.join(call)}).\n"


def falls(which):
    """A clause that takes a constructor off each of these arguments, keeps those before them and loses those after them."""
    head = [f"s(X{k})" if k in which else f"X{k}" for k in places]
    return clause(head, [f"X{k}" if k <= max(which) else f"Z{k}" for k in places])


def moved(k):
    """A clause that moves a constructor from an argument to the next one."""
    head = [f"s(X{i})" if i == k else f"X{i}" for i in places]
    return clause(head, [f"s(X{i})" if i == (k + 1) % 12 else f"X{i}" for i in places])


ring = "".join(f"p{k}(s(X),Y) :- p{k}(X,Y).\np{k}(X,s(Y)) :- p{(k + 1) % 100}(Z,Y).\n" for k in range(100))
texts = {
    "ackermann": "ack(0,N,s(N)).\nack(s(M),0,R) :- ack(M,s(0),R).\nack(s(M),s(N),R) :- ack(s(M),N,S), ack(M,S,R).\n",
    "ring": ring,
    "without": "".join(moved(k) for k in places),
    "twelve": "".join(falls([k]) for k in places),
    "pairs": "".join(falls([k, k + 1]) for k in range(0, 12, 2)),
}
for name, text in texts.items():
    (folder / f"{name}.pl").write_text(text)
PYTHON

for name in ackermann ring without twelve pairs; do
    python3 bench/timed.py "$folder/$name.pl" "$program" lex "$folder/$name.pl"
done
for command in infer lex; do
    python3 - "$program" "$command" "$@" <<'PYTHON'
import subprocess
import sys
import time

program, command, files = sys.argv[1], sys.argv[2], sys.argv[3:]
begin = time.monotonic()
for file in files:
    subprocess.run([program, command, file], stdout=subprocess.DEVNULL, stderr=subprocess.DEVNULL)
print(f"{command} of {len(files)} programs: {time.monotonic() - begin:.2f} s")
PYTHON
done
