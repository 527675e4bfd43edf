#!/usr/bin/env python3
"""Compares integer tests and `is` with SWI-Prolog, where that is installed.

usage: tools/compare_integers.py CTI COUNT [SEED]

COUNT random goals over integers, `+`, `-` and `*` are run by `CTI run` and by `swipl`. Where both have a value they have to agree: on the
value of `is`, and on whether a comparison is true. A goal in which a value does not fit is left out, since SWI-Prolog's numbers have no
bound. The status is 1 where some goal differs.
"""
import random
import subprocess
import sys
import tempfile

MOST = 2**127 - 1
COMPARISONS = ["=:=", "=\\=", "<", "=<", ">", ">="]


def expression(some, depth):
    """A random expression, as text that both read alike."""
    if depth == 0 or some.random() < 0.2:
        return str(some.choice([0, 1, 2, 3, 7, 10, 255, 1000003, 2**40, 2**64 + 1]))
    if some.random() < 0.15:
        return f"-({expression(some, depth - 1)})"
    left, right = expression(some, depth - 1), expression(some, depth - 1)
    return f"({left}){some.choice('+-*')}({right})"


def goals(count, seed):
    some = random.Random(seed)
    for _ in range(count):
        if some.random() < 0.5:
            yield f"X is {expression(some, some.randint(1, 4))}"
        else:
            yield f"{expression(some, 3)} {some.choice(COMPARISONS)} {expression(some, 3)}"


def told_by_swi(file):
    """What SWI-Prolog says of each goal of a file: its value, `true` or `false`."""
    program = (
        "go :- open(File, read, In), repeat, read_term(In, G, [variable_names(Vs)]),"
        " ( G == end_of_file -> true ; tell(G, Vs), fail ), !."
        " tell(G, Vs) :- ( catch(G, _, fail) -> ( Vs = [_=V] -> print(V) ; print(true) ) ; print(false) ), nl."
    ).replace("File", f"'{file}'")
    with tempfile.NamedTemporaryFile("w", suffix=".pl") as source:
        source.write(program)
        source.flush()
        words = ["swipl", "-q", "-g", "go", "-t", "halt", source.name]
        return subprocess.run(words, capture_output=True, text=True, check=True).stdout.split("\n")[:-1]


def told_by_cti(cti, empty, goal):
    """The same of `cti`, or nothing where a value does not fit."""
    ran = subprocess.run([cti, "run", "--", empty, goal], capture_output=True, text=True)
    lines = ran.stdout.split("\n")
    if ran.returncode == 8:
        return None
    if not lines[0].startswith("answer"):
        return "false"
    return lines[0].removeprefix("answer([is(").split(",")[0] if " is " in goal else "true"


def main():
    cti, count, seed = sys.argv[1], int(sys.argv[2]), int(sys.argv[3]) if len(sys.argv) > 3 else 1
    all_goals = list(goals(count, seed))
    with tempfile.NamedTemporaryFile("w", suffix=".pl") as empty, tempfile.NamedTemporaryFile("w", suffix=".goals") as file:
        file.write("".join(f"{goal}.\n" for goal in all_goals))
        file.flush()
        both = [(goal, told_by_cti(cti, empty.name, goal), swi) for goal, swi in zip(all_goals, told_by_swi(file.name), strict=True)]
    different = [it for it in both if it[1] is not None and it[1] != it[2]]
    for goal, ours, theirs in different:
        print(f"{goal}: cti {ours}, swipl {theirs}")
    left_out = sum(it[1] is None for it in both)
    print(f"{len(both) - left_out} goals compared, {left_out} left out, {len(different)} different")
    return bool(different)


if __name__ == "__main__":
    sys.exit(main())
