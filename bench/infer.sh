#!/usr/bin/env bash
# Times `cti infer`, outside the gate: 1 MB of facts (long ones, and of different names) and half as much, quicksort, generated programs
# of 150 and 300 predicates, a chain of 3,000 predicates and rings of 300 and 1,000 in a shuffled order, a machine of 100 states, a clause
# of 48 variables, 8 predicates that call each other at random, and facts whose arguments have sizes that differ at random; and
# `cti check` on the certificates of the generated ones.
# Usage: bench/infer.sh [PROGRAM]     (PROGRAM is bin/cti where none is named)
set -eu
cd "$(dirname "$0")/.."
program=$(realpath "${1:-bin/cti}")
folder=$(mktemp -d)
trap 'rm -rf "$folder"' EXIT

python3 - "$folder" <<'PYTHON'
import random
import sys
from pathlib import Path

folder = Path(sys.argv[1])


def write(name, text):
    (folder / f"{name}.pl").write_text(text)


def whole_lines(text, length):
    """The lines of a text that end within a length."""
    text = text[:length]
    return text[: text.rindex("\n") + 1]


def generated(count):
    """Appends, reversals and compositions by turns, each over the predicate before it."""
    clauses = []
    for k in range(1, count + 1):
        own, below = f"p{k}", f"p{k - 1}"
        if k % 3 == 1:
            clauses += [f"{own}([],L,L).", f"{own}([H|T],L,[H|R]) :- {own}(T,L,R)."]
        elif k % 3 == 2:
            clauses += [f"{own}([],[]).", f"{own}([H|T],R) :- {own}(T,S), {below}(S,[H],R)."]
        else:
            clauses += [f"{own}(X,Y) :- {below}(X,Z), {below}(Z,Y)."]
    return "\n".join(clauses) + "\n"


def shuffled(clauses):
    random.Random(1).shuffle(clauses)
    return "\n".join(clauses) + "\n"


def nested(size):
    """A term of this size."""
    return "f(" * size + "a" + ")" * size


def points(count, arity, most):
    """Facts whose arguments have sizes that differ at random from 0 to the greatest."""
    pick = random.Random(count * 100 + arity)
    return "".join("p(" + ",".join(nested(pick.randint(0, most)) for _ in range(arity)) + ").\n" for _ in range(count))


def calls(count, arity):
    """Predicates in a ring, each of which also calls two others at random, with its arguments permuted."""
    pick = random.Random(1)
    clauses = []
    for k in range(count):
        own = [f"X{place}" for place in range(arity)]
        for _ in range(2):
            called, others, head, place = pick.randrange(count), list(own), list(own), pick.randrange(arity)
            pick.shuffle(others)
            if pick.random() < 0.7:
                head[place] = f"s({own[place]})"
            clauses.append(f"p{k}({','.join(head)}) :- p{called}({','.join(others)}).")
        clauses.append(f"p{k}({','.join(['0'] * arity)}).")
        clauses.append(f"p{k}(s({own[0]}),{','.join(own[1:])}) :- p{(k + 1) % count}({','.join(own)}).")
    return "\n".join(clauses) + "\n"


def states(count):
    """States of a machine that reads a list: each goes on to the next one and to two others at random."""
    pick = random.Random(1)
    clauses = ["get([X|L],L)."]
    for k in range(count):
        for to in (pick.randrange(count), pick.randrange(count), (k + 1) % count):
            clauses.append(f"s{k}(L) :- get(L,M), s{to}(M).")
    return shuffled(clauses)


for count, arity, most in [
    *[(80, 3, 9), (20, 4, 9), (100, 4, 9), (9, 5, 9), (14, 5, 9), (30, 5, 9), (60, 5, 9), (80, 5, 9), (100, 5, 9)],
    *[(20, 6, 9), (40, 3, 99)],
]:
    write(f"points_{count}_{arity}_{most}", points(count, arity, most))
write("calls_8_3", calls(8, 3))
long_fact = "p(" + ",".join(["abcd"] * 11) + ").\n"
different = "".join(f"p{n:05}(" + ",".join(f"a{n:05}x{k}" for k in range(6)) + ").\n" for n in range(16384))
for name, text in [("long", long_fact * 16384), ("different", different)]:
    text = whole_lines(text, 1048576)
    write(name, text)
    write(f"{name}_half", whole_lines(text, len(text) // 2))
write(
    "quicksort",
    "app([],L,L).\napp([H|T],L,[H|R]) :- app(T,L,R).\nqs([],[]).\n"
    "qs([H|T],S) :- part(H,T,L,G), qs(L,A), qs(G,B), app(A,[H|B],S).\npart(_,[],[],[]).\n"
    "part(Y,[X|Xs],[X|L],G) :- leq(X,Y), part(Y,Xs,L,G).\npart(Y,[X|Xs],L,[X|G]) :- leq(Y,X), part(Y,Xs,L,G).\n"
    "leq(0,_).\nleq(s(X),s(Y)) :- leq(X,Y).\n",
)
for count in (150, 300):
    write(f"generated_{count}", generated(count))
write("chain", shuffled([f"p{n}(X,Y,Z) :- p{n + 1}(X,Y,Z)." for n in range(2999)] + ["p2999(a,b,c)."]))
for count in (300, 1000):
    ring = [f"p{n}(X) :- p{n + 1}(X)." for n in range(count - 1)] + [f"p{count - 1}(s(X)) :- p0(X)."]
    write(f"ring_{count}", shuffled(ring))
write("states_100", states(100))
groups = [",".join(f"X{12 * g + k}" for k in range(1, 13)) for g in range(4)]
write(
    "wide",
    "r(A,B,C,D,E,F,G,H,I,J,K,L).\nq(X,X).\np :- "
    + ", ".join([f"r({group})" for group in groups] + [f"q(X{k},X{k + 24})" for k in range(1, 25)])
    + ".\n",
)
PYTHON

for name in long_half long different_half different quicksort generated_150 generated_300 chain ring_300 ring_1000 \
    states_100 wide calls_8_3 points_80_3_9 points_20_4_9 points_100_4_9 points_9_5_9 points_14_5_9 points_30_5_9 \
    points_60_5_9 points_80_5_9 points_100_5_9 points_20_6_9 points_40_3_99; do
    python3 bench/timed.py "$folder/$name.pl" "$program" infer "$folder/$name.pl"
done
for name in generated_150 generated_300; do
    "$program" infer "$folder/$name.pl" > "$folder/$name.cert"
    python3 bench/timed.py "$folder/$name.cert" "$program" check "$folder/$name.pl" "$folder/$name.cert"
done
