#!/usr/bin/env bash
# Times `cti infer`, outside the gate, on texts of 1 MB of one shape each: tokens, terms and clauses that repeat as often as fits, and
# disjunctions side by side, in a balanced tree, and nested in one another to the limit of depth.
# Usage: bench/shapes.sh [PROGRAM]     (PROGRAM is bin/cti where none is named)
set -eu
cd "$(dirname "$0")/.."
program=$(realpath "${1:-bin/cti}")
folder=$(mktemp -d)
trap 'rm -rf "$folder"' EXIT

python3 - "$folder" <<'PYTHON'
import sys
from pathlib import Path

folder = Path(sys.argv[1])
SIZE = 1_048_576


def write(name, text):
    assert len(text) <= SIZE, (name, len(text))
    (folder / f"{name}.pl").write_text(text)


def repeated(piece):
    """The piece as often as it fits."""
    return piece * (SIZE // len(piece))


def filled(first, piece, last, join=""):
    """Between two ends, as many pieces as fit."""
    count = (SIZE - len(first) - len(last) + len(join)) // (len(piece) + len(join))
    return first + join.join([piece] * count) + last


def numbered(first, form, last, join=","):
    """The same of pieces that a number makes."""
    parts, size = [], len(first) + len(last)
    while size + len(form.format(len(parts))) + len(join) <= SIZE:
        parts.append(form.format(len(parts)))
        size += len(parts[-1]) + len(join)
    return first + join.join(parts) + last


def tree(parts, join):
    """The parts as a balanced tree of an operator."""
    while len(parts) > 1:
        pairs = [f"({left}{join}{right})" for left, right in zip(parts[::2], parts[1::2])]
        parts = pairs + parts[len(pairs) * 2 :]
    return parts[0]


def nested(inner, levels, opening, closing):
    """A body with the inner one in a disjunction in a disjunction and so on."""
    return f"p(X) :- {opening * levels}{inner}{closing * levels}.\n"


write("comment", "%" + "a" * (SIZE - 2) + "\n")
write("comments", repeated("%\n"))
write("layout", " " * SIZE)
write("name", "a" * (SIZE - 1) + ".")
write("graphic", "+" * (SIZE - 1) + "\n")
write("quoted", "'" + "a" * (SIZE - 3) + "'.")
write("unclosed", "'" + "a" * (SIZE - 1))
write("minus", repeated("- "))
write("sums", repeated("p(" + "+".join("a" * 990) + ").\n"))
write("powers", repeated("p(" + "^".join("a" * 990) + ").\n"))
write("signs", repeated("p(" + "- " * 990 + "a).\n"))
write("lists", repeated("p([" + ",".join("a" * 990) + "]).\n"))
write("nested_lists", repeated("p(" + "[" * 990 + "]" * 990 + ").\n"))
write("braces", repeated("p(" + "{" * 990 + "a" + "}" * 990 + ").\n"))
write("strings", repeated('p("' + "a" * 990 + '").\n'))
write("operators", repeated(":- op(700,xfx,=).\n"))
write("new_operators", numbered("", ":- op(700,xfx,o{}).", "\n", "\n"))
write("arguments", filled("p(f(", "a", ")).\n", ","))
write("variables", numbered("p(f(", "X{}", ")).\n"))
write("names", numbered("p(f(", "a{}", ")).\n"))
write("calls", "".join(f"p{k}:-q{k}.\n" for k in range(16384)))
write("side_by_side", tree(["(a;b)"] * 110_000, ",").join(["p :- ", ".\n"]))
write("branches", tree(["a"] * 250_000, ";").join(["p :- ", ".\n"]))
left = 490
room = SIZE - 20_000
write("nested_term", nested("h(f(" + ",".join(["X"] * (room // 2)) + "))", left, "(", ",a;b)"))
write("nested_openers", nested("h(f(" + ",".join(["X"] * (room // 2)) + "))", 240, "(a,(b;", "))"))
write("nested_goals", nested(tree(["a(X)"] * (room // 8), ","), left - 60, "(", ",a;b)"))
letters = ",".join("ABCDEFGHIJKLMNOPQRSTUVW") + ",X"
write("nested_letters", nested("h(f(" + ",".join([letters] * (room // (len(letters) + 1))) + "))", left, "(", ",a(X);b)"))
many = ",".join(f"X{k}" for k in range(60))
write("nested_many", nested("h(f(" + ",".join([many] * (room // (len(many) + 1))) + "))", left, "(", ",a(X);b)"))
PYTHON

for file in "$folder"/*.pl; do
    python3 bench/timed.py "$file" "$program" infer "$file"
done
