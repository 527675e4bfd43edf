#!/usr/bin/env python3
"""Whether docs/proved.md names calls and clauses that exist.

usage: tools/proved.py

Each name in the columns for calls, laws and clauses of a table of docs/proved.md is looked up in crates/*/src: a call or a law as a function,
a type or a trait, and a clause as a label of an `ensures` of the calls before it. What is not there is printed, and the status is 1.
"""
import re
import sys
from pathlib import Path

top = Path(__file__).resolve().parent.parent
ITEM = re.compile(r"(?m)^( *)(?:pub(?:\([a-z]+\))? )?(?:const )?(fn|struct|enum|trait|type) (\w+)")
LABEL = re.compile(r"(?:ensures|requires) (\w+) \{")


def items():
    """The functions and types of all crates by name, each with the labels of its clauses."""
    found = {}
    for path in sorted(top.glob("crates/*/src/**/*.rt")):
        text = path.read_text()
        for match in ITEM.finditer(text):
            ends = [at for at in (text.find(f"\n{match[1]}{{", match.end()), text.find(";\n", match.end()), text.find("\n\n", match.end())) if at > 0]
            body = text.find(f"\n{match[1]}{{", match.end())
            end = body if match[2] == "fn" and body > 0 else min(ends, default=len(text))
            found.setdefault(match[3], set()).update(LABEL.findall(text[match.end() : end]))
    return found


def names(cell):
    return re.findall(r"`(?:\w+::)?([A-Za-z_]\w*)`", cell)


def main():
    known, wrong = items(), []
    crates = {path.name for path in top.glob("crates/*")}
    columns, calls = [], []
    for number, line in enumerate((top / "docs/proved.md").read_text().split("\n"), 1):
        if not line.startswith("|"):
            columns = []
            continue
        cells = [cell.strip() for cell in line.strip("|").split("|")]
        if not columns:
            columns, calls = cells, []
            continue
        if set("".join(cells)) <= {"-", " "}:
            continue
        row = dict(zip(columns, cells))
        for column, cell in row.items():
            if column == "Crate":
                wrong += [f"{number}: there is no crate {it}" for it in names(cell) if it not in crates]
            if column == "Call" or column.startswith("Law"):
                calls = names(cell) or calls
                wrong += [f"{number}: there is no {it}" for it in names(cell) if it not in known]
        for label in names(row.get("Clause", "")):
            if not any(label in known.get(call, ()) for call in calls):
                wrong.append(f"{number}: no clause {label} on {', '.join(calls)}")
    print("\n".join(wrong) or "docs/proved.md names what is there")
    return bool(wrong)


if __name__ == "__main__":
    sys.exit(main())
