#!/usr/bin/env bash
# Times `cti session` outside the gate: texts of 2,000 and of 16,000 clauses that are added, 16,000 rules of as many predicates, 2,000 and 16,000
# such rules after a first one that was asked for, one clause that comes and goes a thousand times, and a
# library of 300 predicates whose modes are asked for after each of 20 edits, beside `cti infer` of the whole library. Then the generated
# program of 300 predicates, in which a clause of one that three predicates reach comes and goes, with modes after each edit: what one edit
# takes beside `cti infer` of the whole program.
# Usage: bench/session.sh [PROGRAM]     (PROGRAM is bin/cti where none is named)
set -eu
cd "$(dirname "$0")/.."
program=$(realpath "${1:-bin/cti}")
folder=$(mktemp -d)
trap 'rm -rf "$folder"' EXIT

python3 - "$folder" <<'PYTHON'
import sys
from pathlib import Path

folder = Path(sys.argv[1])


def chain(count):
    """Predicates each of which goes down its list, and hands the rest on to the next."""
    lines = []
    for k in range(count):
        lines += [f"p{k}([],Y) :- p{k + 1}(Y,Y).", f"p{k}([H|T],Y) :- p{k}(T,[H|Y])."]
    return lines + [f"p{count}(X,Y)."]


def added(line):
    return f"add(({line[:-1]})).\n"


def rules(first, count):
    """Rules of as many predicates, each of which calls itself."""
    return [f"p{k}(X) :- p{k}(X)." for k in range(first, count)]


def after_one(count):
    """Rules that are added after the first one's modes were asked for."""
    return "".join(map(added, rules(0, 1))) + "modes(p0/1).\n" + "".join(map(added, rules(1, count))) + "modes(p0/1).\n"


library = chain(300)
text = "".join(map(added, library))
leaf = added("q([H|T]) :- q(T).")
numbered = len(library) + 1
texts = {
    "adds_2000": "".join(map(added, chain(1000))) + "modes(p0/2).\n",
    "adds_16000": "".join(added(f"f({k}).") for k in range(16000)) + "modes(f/1).\n",
    "rules_16000": "".join(map(added, rules(0, 16000))) + "modes(p0/1).\n",
    "after_one_2000": after_one(2000),
    "after_one_16000": after_one(16000),
    "once": text + leaf + f"del({numbered}).\nmodes(p0/2).\n",
    "thousand": text + (leaf + f"del({numbered}).\n") * 1000 + "modes(p0/2).\n",
    "asked": text + (leaf + f"modes(q/1).\ndel({numbered}).\nmodes(p0/2).\n") * 10,
}
for name, edits in texts.items():
    (folder / f"{name}.pl").write_text(edits)
(folder / "library.pl").write_text("\n".join(library) + "\n")
PYTHON
python3 - "$folder" <<'PYTHON'
import sys
from pathlib import Path

folder = Path(sys.argv[1])


def predicate(k):
    """The clauses of predicate k of the program that `cti gen` makes."""
    if k % 3 == 1:
        return [f"p{k}([],L,L).", f"p{k}([H|T],L,[H|R]) :- p{k}(T,L,R)."]
    if k % 3 == 2:
        return [f"p{k}([],[]).", f"p{k}([H|T],R) :- p{k}(T,S), p{k - 1}(S,[H],R)."]
    return [f"p{k}(X,Y) :- p{k - 1}(X,Z), p{k - 1}(Z,Y)."]


clauses = [line for k in range(1, 301) for line in predicate(k)]
(folder / "generated.pl").write_text("\n".join(clauses) + "\n")
grown = "".join(f"add(({line[:-1]})).\n" for line in clauses) + "modes(p300/2).\n"
leaf = "p298([],L,L)"
place = clauses.index(leaf + ".") + 1
first = f"del({place}).\nmodes(p300/2).\nadd(({leaf})).\nmodes(p300/2).\n"
again = f"del({len(clauses)}).\nmodes(p300/2).\nadd(({leaf})).\nmodes(p300/2).\n"
(folder / "grown.pl").write_text(grown)
(folder / "edited.pl").write_text(grown + first + again * 99)
PYTHON

python3 bench/timed.py "$folder/library.pl" "$program" infer "$folder/library.pl"
for name in adds_2000 adds_16000 rules_16000 after_one_2000 after_one_16000 once thousand asked; do
    python3 bench/timed.py "$folder/$name.pl" "$program" session "$folder/$name.pl"
done
python3 bench/timed.py "$folder/generated.pl" "$program" infer "$folder/generated.pl"
for name in grown edited; do
    python3 bench/timed.py "$folder/$name.pl" "$program" session "$folder/$name.pl"
done
python3 - "$program" "$folder" <<'PYTHON'
import resource
import subprocess
import sys

program, folder = sys.argv[1:]


def seconds(command, name):
    """The least processor time of five runs."""
    times = []
    for _ in range(5):
        before = resource.getrusage(resource.RUSAGE_CHILDREN)
        subprocess.run([program, command, f"{folder}/{name}.pl"], stdout=subprocess.DEVNULL, check=True)
        after = resource.getrusage(resource.RUSAGE_CHILDREN)
        times.append(after.ru_utime + after.ru_stime - before.ru_utime - before.ru_stime)
    return min(times)


whole = seconds("infer", "generated")
edit = (seconds("session", "edited") - seconds("session", "grown")) / 200
print(f"one edit, with the modes after it: {edit * 1000:.2f} ms, {edit / whole:.3f} of infer")
PYTHON
