#!/usr/bin/env bash
# Times `cti loop` where it looks at many derivations, or copies much, outside the gate: 100,000 of a ring of arguments that grow, 100,000 of a transitive
# closure of a graph in twelve layers, the 556 ways to append lists to a list, goals with an atom of 20,001 arguments' worth of terms, and
# 100,000 derivations of a program of 16,000 clauses; the last of them as far as the search goes.
# Usage: bench/loop.sh [PROGRAM]     (PROGRAM is bin/cti where none is named)
set -eu
cd "$(dirname "$0")/.."
program=$(realpath "${1:-bin/cti}")
folder=$(mktemp -d)
trap 'rm -rf "$folder"' EXIT

python3 - "$folder" <<'PYTHON'
import sys
from pathlib import Path

folder = Path(sys.argv[1])
ring = "".join(f"p(X,Y,Z) :- p(Y,Z,{name}(X)).\n" for name in "stu")
layers = [[f"n{layer}_{node}" for node in range(4)] for layer in range(13)]
edges = "".join(f"e({one},{other}).\n" for above, below in zip(layers, layers[1:]) for one in above for other in below)
closure = "tc(X,Y) :- e(X,Y).\ntc(X,Y) :- e(X,Z), tc(Z,Y).\n" + edges
append = "app([],L,L).\napp([H|T],L,[H|R]) :- app(T,L,R).\n"
parts = append + "parts(L) :- app(A,B,L), app(C,D,A), app(E,F,B), app(G,H,C), app(I,J,D).\n"
wide = "p(X) :- p(f(X)).\np(X) :- p(g(X)).\np(X) :- p(h(X)).\n"
facts = "b(0).\nb(1).\nb(2).\n" + "".join(f"c({k}).\n" for k in range(16000))
clauses = "r :- " + ", ".join(f"b(X{k})" for k in range(12)) + ".\n" + facts
tried = "r :- " + ", ".join(f"b(X{k})" for k in range(9)) + ", c(none).\n" + facts
for name, text in [("ring", ring), ("closure", closure), ("append", parts), ("wide", wide), ("clauses", clauses), ("tried", tried)]:
    (folder / f"{name}.pl").write_text(text)
elements = ",".join(f"e{k}" for k in range(9))
(folder / "append.query").write_text(f"parts([{elements}])")
(folder / "wide.query").write_text("p(s(" + ",".join("a" for _ in range(20001)) + "))")
PYTHON

timed() { python3 bench/timed.py "$folder/$1.pl" "$program" loop "$folder/$1.pl" "$2" --depth 12; }
timed ring 'p(a,b,c)'
timed closure 'tc(X,Y)'
timed append "$(cat "$folder/append.query")"
timed wide "$(cat "$folder/wide.query")"
timed clauses r
timed tried r
