#!/usr/bin/env bash
# Times `cti check` on valid certificates, outside the gate: of many copies of append and of many facts, whole and half as long.
# Usage: bench/check.sh [PROGRAM]     (PROGRAM is bin/cti where none is named)
set -eu
cd "$(dirname "$0")/.."
program=$(realpath "${1:-bin/cti}")
folder=$(mktemp -d)
trap 'rm -rf "$folder"' EXIT

python3 - "$folder" <<'PYTHON'
import sys
from pathlib import Path

folder = Path(sys.argv[1])
lines = Path("examples/append.cert").read_text().splitlines()


def appends(count):
    """The text of so many copies of append, and its certificate, each copy's lines beside those of the others."""
    text = "".join(
        f"append{n:05}([],L,L).\nappend{n:05}([H|T],L,[H|R]) :- append{n:05}(T,L,R).\n" for n in range(count)
    )
    groups = []
    for line in lines[1:]:
        kind = line.split("(")[0]
        if not groups or groups[-1][0] != kind:
            groups.append((kind, []))
        groups[-1][1].append(line)
    facts = [lines[0]]
    for kind, group in groups:
        for n in range(count):
            for line in group:
                if kind in ("by", "falls"):
                    clause, rest = line.split("(")[1].split(",", 1)
                    facts.append(f"{kind}({2 * n + int(clause)},{rest}")
                else:
                    facts.append(line.replace("app/", f"append{n:05}/"))
    return text, "\n".join(facts) + "\n"


def facts(count):
    """The text of so many facts of as many predicates, and its certificate."""
    text = "".join(f"f{n:05}(a).\n" for n in range(count))
    names = [f"f{n:05}/1" for n in range(count)]
    certificate = ["cti(1)."]
    certificate += [f"terminates({name},[[]])." for name in names]
    certificate += [f"size({name},1,[0,0])." for name in names]
    certificate += [f"by({n + 1},1,1,[])." for n in range(count)]
    certificate += [f"grounds({name},1,[1])." for name in names]
    certificate += [f"measure({name},1,[0],0)." for name in names]
    certificate += [f"pre({name},1,1,[x])." for name in names]
    return text, "\n".join(certificate) + "\n"


for name, make, count in [("appends", appends, 8192), ("facts", facts, 16384)]:
    for part, share in [("", 1), ("_half", 2)]:
        text, certificate = make(count // share)
        (folder / f"{name}{part}.pl").write_text(text)
        (folder / f"{name}{part}.cert").write_text(certificate)
PYTHON

for name in appends_half appends facts_half facts; do
    python3 bench/timed.py "$folder/$name.cert" "$program" check "$folder/$name.pl" "$folder/$name.cert"
done
