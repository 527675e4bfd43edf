#!/usr/bin/env bash
# Times `cti run` beside SWI-Prolog with its occurs check on, outside the gate: naive reverse of 900 elements, all permutations of 8,
# six queens, the towers of Hanoi with 13 discs, and all splits of a list of 600. Both go through all answers of the same query, once
# without writing any and once writing all. Then it times `cti run` alone on what once took it long or much memory: a counter beside
# a result that stays a variable, answers that share a great term, and two terms of 200 levels that share their parts. Times are the
# least of seven runs, in seconds of the processor. From those of `cti`, and from its memory, what a run of one step takes is taken off:
# the start and the reading, which SWI-Prolog's times leave out as well.
# Usage: bench/run.sh [PROGRAM]     (PROGRAM is bin/cti where none is named)
set -eu
cd "$(dirname "$0")/.."
program=$(realpath "${1:-bin/cti}")
folder=$(mktemp -d)
trap 'rm -rf "$folder"' EXIT

python3 - "$program" "$folder" <<'PYTHON'
import os
import shutil
import subprocess
import sys
from pathlib import Path

program, folder = sys.argv[1], Path(sys.argv[2])
APP = "app([],L,L).\napp([H|T],L,[H|R]) :- app(T,L,R).\n"
REV = APP + "rev([],[]).\nrev([H|T],R) :- rev(T,S), app(S,[H],R).\n"
PERM = "sel(X,[X|T],T).\nsel(X,[H|T],[H|R]) :- sel(X,T,R).\nperm([],[]).\nperm(L,[X|P]) :- sel(X,L,R), perm(R,P).\n"
QUEENS = PERM + (
    "queens(L,Q) :- perm(L,Q), safe(Q).\nsafe([]).\nsafe([Q|Qs]) :- noatt(Q,s(0),Qs), safe(Qs).\nnoatt(_,_,[]).\n"
    "noatt(Q,D,[P|Ps]) :- plus(P,D,S), diff(Q,S), plus(Q,D,T), diff(P,T), noatt(Q,s(D),Ps).\n"
    "diff(0,s(_)).\ndiff(s(_),0).\ndiff(s(X),s(Y)) :- diff(X,Y).\nplus(0,Y,Y).\nplus(s(X),Y,s(Z)) :- plus(X,Y,Z).\n"
)
HANOI = APP + "hanoi(0,_,_,_,[]).\nhanoi(s(N),A,B,C,M) :- hanoi(N,A,C,B,L), hanoi(N,C,B,A,R), app(L,[A-B|R],M).\n"
COUNTER = "c(R,N) :- c(R,s(N)).\n"
DOUBLED = "d0(a).\n" + "".join(f"d{k + 1}(f(T,T)) :- d{k}(T).\n" for k in range(15)) + "n(0).\nn(s(X)) :- n(X).\n"
SHARED = "pair(0,X,X).\npair(s(N),X,T) :- pair(N,f(X,X),T).\nboth(N) :- pair(N,_,S), pair(N,_,T), S = T.\n"
RUNS = 7


def elements(n):
    return "[" + ",".join(f"e{k}" for k in range(n)) + "]"


def number(n):
    return "s(" * n + "0" + ")" * n


CASES = [
    ("reverse of 900", REV, f"rev({elements(900)},R)"),
    ("permutations of 8", PERM, f"perm({elements(8)},P)"),
    ("six queens", QUEENS, f"queens([{','.join(number(n) for n in range(1, 7))}],Q)"),
    ("towers of Hanoi with 13 discs", HANOI, f"hanoi({number(13)},a,b,c,M)"),
    ("splits of 600", APP, f"app(X,Y,{elements(600)})"),
]
ALONE = [
    ("counter beside a result", COUNTER, "c(R,0)", 100_000),
    ("answers that share a term of 65,535 nodes", DOUBLED, "d15(T), n(X)", 450),
    ("shared terms of 200 levels", SHARED, f"both({number(200)})", 1_000_000),
]


def once(file, query, steps):
    """The last line of a run, its time and its greatest memory in bytes."""
    # GNU time says the memory: what this process waits for has at least the memory of this one.
    words = ["/usr/bin/time", "-f", "%M", "-o", str(folder / "memory"), program, "run", str(file), query, "--steps", str(steps)]
    child = subprocess.Popen(words, stdout=subprocess.PIPE)
    last = child.stdout.read().splitlines()[-1]
    used = os.wait4(child.pid, 0)[2]
    child.returncode = 0
    memory = int((folder / "memory").read_text().split()[-1]) * 1024
    return last, used.ru_utime + used.ru_stime, memory


def ours(file, query, limit=1_000_000):
    """The number of steps, the least time, and the bytes of memory for each step, both beyond those of a run of one step."""
    runs = [once(file, query, limit) for _ in range(RUNS)]
    small = [once(file, query, 1) for _ in range(RUNS)]
    steps = int(runs[0][0].split(b"(")[1].split(b",")[0])
    spent, size = (min(run[k] for run in runs) - min(run[k] for run in small) for k in (1, 2))
    return steps, max(spent, 0.0001), size / steps


def theirs(swi, file, work):
    """The least time, as the system tells it."""
    goal = f"set_prolog_flag(occurs_check,true), statistics(cputime,A), ({work}), statistics(cputime,B), C is B-A, format('~nspent ~w~n',[C])"
    times = []
    for _ in range(RUNS):
        told = subprocess.run([swi, "-q", "-g", goal, "-t", "halt", str(file)], stdout=subprocess.PIPE).stdout
        times.append(float(told.split()[-1]))
    return min(times)


swi = shutil.which("swipl")
file = folder / "program.pl"
for name, text, query in CASES:
    file.write_text(text)
    for kind, asked, work in [
        ("searched", f"{query}, fail", f"\\+ ({query}, fail)"),
        ("written", query, f"Goal = ({query}), forall(Goal, (writeq(Goal), nl))"),
    ]:
        steps, spent, bytes_each = ours(file, asked)
        line = f"{name}, {kind}: {steps} steps, {spent:.3f} s, {bytes_each:.0f} bytes a step"
        if swi:
            other = theirs(swi, file, work)
            line += f", SWI-Prolog {other:.3f} s, {other / spent:.2f} of its steps a second"
        print(line)
for name, text, query, limit in ALONE:
    file.write_text(text)
    steps, spent, bytes_each = ours(file, query, limit)
    print(f"{name}: {steps} steps, {spent:.3f} s, {bytes_each:.0f} bytes a step")
PYTHON
