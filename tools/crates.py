#!/usr/bin/env python3
"""docs/architecture.md, the map of the crates, as far as it is made from crates.txt.

usage: tools/crates.py            the crates by floor: a crate stands one floor above the highest of those that it
                                  depends on
       tools/crates.py --write    writes the tables of crates and the list of dependencies into the page
       tools/crates.py --check    says what of the page is not so, which dependencies nothing of a crate names, and
                                  which definitions pages name by a path that is not there

crates.txt gives the groups, each below a comment `# Name: what it is about.`, and their crates in order. What a crate
does and the contract used above it are written by hand, in its row on the page, and stay; the page's minutes and floors
are made here. A crate without a row gets one with `?`, which --check refuses until it is filled in.

Minutes are those of tools/crate_minutes.txt of the crate and of all crates above it. --check lets them be off by one
minute or a tenth, so that a new measurement alone is no fault.
"""
import re
import sys
from pathlib import Path

top = Path(__file__).resolve().parent.parent
page = top / "docs" / "architecture.md"
PAGES = [*sorted((top / "docs").glob("*.md")), top / "README.md", top / "CONTRIBUTING.md"]
ROW = re.compile(r"^\| `(\w+)` \| (.*?) \| (.*?) \| (\d+|\?) \|$")
HEAD = "| Crate | Does | The contract used above | Minutes |\n|---|---|---|---|"
UNKNOWN = "?"
# What is not written by hand stands between these.
PARTS = ("crates", "dependencies")
BEGIN, END = "<!-- made by tools/crates.py --write: {} -->", "<!-- end of {} -->"


def listed():
    """The groups of crates.txt, each a name, what it is about, and its crates; and what each crate depends on."""
    groups, needs = [], {}
    for line in (top / "crates.txt").read_text().splitlines():
        if line.startswith("#"):
            name, _, about = line.lstrip("# ").rstrip(".").partition(": ")
            groups.append((name, about, []))
        elif ":" in line:
            crate, _, rest = line.partition(":")
            needs[crate.strip()] = rest.split()
            groups[-1][2].append(crate.strip())
    return groups, needs


def at_or_above(crates):
    """Each crate with all crates that need it."""
    found = {name: {name} for name in crates}
    for name in reversed(crates):  # a crate stands after those that it depends on
        for other in crates[name]:
            if other in found:
                found[other] |= found[name]
    return found


def floors(crates):
    """How high each crate stands; libraries of the kit count nothing."""
    found = {}
    for name, needs in crates.items():
        found[name] = max((found[other] + 1 for other in needs if other in found), default=0)
    return found


def costs(crates):
    """The minutes of the proofs that a change of each crate asks for. A crate that was not measured counts nothing."""
    lines = (top / "tools" / "crate_minutes.txt").read_text().splitlines()
    minutes = {name: float(number) for name, number in (line.split() for line in lines if not line.startswith("#"))}
    return {name: round(sum(minutes.get(other, 0.0) for other in above)) for name, above in at_or_above(crates).items()}


def is_near(written, minutes):
    return abs(written - minutes) <= max(1, minutes / 10)


def rows_of(text):
    """What the page says of each crate: what it does, its contract, and the minutes."""
    rows = {}
    for line in text.splitlines():
        if match := ROW.match(line):
            rows[match.group(1)] = match.groups()[1:]
    return rows


def crate_tables(groups, rows, minutes):
    """The groups with their crates in order."""
    parts = []
    for name, about, crates in groups:
        lines = [f"### {name}", "", f"{about[:1].upper()}{about[1:]}.", "", HEAD]
        for crate in crates:
            does, contract, _ = rows.get(crate, (UNKNOWN, UNKNOWN, None))
            lines.append(f"| `{crate}` | {does} | {contract} | {minutes[crate]} |")
        parts.append("\n".join(lines))
    return "\n\n".join(parts)


def nearest(crates):
    """What each crate depends on, but for what another of its dependencies stands on already."""
    above = at_or_above(crates)
    return {
        name: [low for low in needs if not any(other != low and other in above.get(low, ()) for other in needs)]
        for name, needs in crates.items()
    }


def dependency_list(crates):
    """The nearest dependencies of each crate, from the highest floor down."""
    near, high = nearest(crates), floors(crates)
    names = sorted(crates, key=lambda name: -high[name])
    lines = [f"{high[name]:2} {name}: {' '.join(near[name])}".rstrip() for name in names]
    return "\n".join(["```", *lines, "```"])


def made(text, groups, crates):
    """The page with its made parts as they should be."""
    parts = {
        "crates": crate_tables(groups, rows_of(text), costs(crates)),
        "dependencies": dependency_list(crates),
    }
    for part in PARTS:
        before, begin, rest = text.partition(BEGIN.format(part))
        _, end, after = rest.partition(END.format(part))
        if not end:
            sys.exit(f"{page.relative_to(top)}: no part between '{BEGIN.format(part)}' and '{END.format(part)}'")
        text = f"{before}{begin}\n\n{parts[part]}\n\n{end}{after}"
    return text


def without_minutes(text):
    return re.sub(ROW.pattern, r"| `\1` | \2 | \3 |", text, flags=re.MULTILINE)


def order_faults(crates):
    """Crates that stand before one that they depend on."""
    before = set()
    for name, needs in crates.items():
        before.add(name)
        late = [other for other in needs if other in crates and other not in before]
        yield from (f"crates.txt: {name} stands before {other}, on which it depends" for other in late)


def row_faults(text, groups, crates):
    """What of the made parts is missing or old."""
    rows, minutes = rows_of(text), costs(crates)
    for name in crates:
        if name not in rows or UNKNOWN in rows[name]:
            yield f"{name}: no row says what it does and which contract is used above"
        elif not is_near(int(rows[name][2]), minutes[name]):
            yield f"{name}: its minutes are old: tools/crates.py --write"
    yield from (f"{name}: a row, and no line in crates.txt" for name in rows if name not in crates)
    if without_minutes(made(text, groups, crates)) != without_minutes(text):
        yield "docs/architecture.md is not what crates.txt gives: tools/crates.py --write"


def drawing_faults(text, groups, crates):
    """Groups that the drawing of the groups lacks, or has below one that stands on them."""
    drawing = next((block for block in text.split("```")[1::2] if all(name in block for name, _, _ in groups[:2])), "")
    line = {name: drawing[:drawing.find(name)].count("\n") for name, _, _ in groups if name in drawing}
    yield from (f"the drawing of the groups has no {name}" for name, _, _ in groups if name not in line)
    group = {crate: name for name, _, members in groups for crate in members}
    pairs = {(group[crate], group[other]) for crate, needs in crates.items() for other in needs if other in group}
    for high, low in sorted(pairs):
        if high != low and {high, low} <= set(line) and line[high] >= line[low]:
            yield f"the drawing of the groups has {high}, which stands on {low}, not above it"


def files_of(name, folders=("src", "specs", "proofs")):
    found = (path for folder in folders for path in (top / "crates" / name / folder).rglob("*"))
    return [path for path in found if path.suffix in (".rt", ".antt")]


def words_of_sources(crates):
    """All words of the code, the definitions and the converter."""
    paths = [path for name in crates for path in files_of(name, ("src", "specs"))] + list((top / "swi").glob("*.pl"))
    return {word for path in paths for word in re.findall(r"\w+", path.read_text())}


def is_file(name, line, crates):
    """Whether a file is there: by its path, or one without a folder in a crate that the line names."""
    if "/" in name:
        return any((top / folder / name).exists() for folder in ("", "crates"))
    if (top / name).exists() or (top / "docs" / name).exists():
        return True
    near = set(re.findall(r"\w+", line)) & set(crates)
    return any(path.name == name for crate in near for path in files_of(crate, ("src", "specs")))


def dead_names(text, crates):
    """What the page names in code, and what is neither a file or a crate nor a word of the sources."""
    words = words_of_sources(crates) | set(crates) | {other for needs in crates.values() for other in needs}
    for line in re.sub(r"```.*?```", "", text, flags=re.DOTALL).splitlines():
        for name in re.findall(r"`([^`]+)`", line):
            if re.fullmatch(r"[\w./-]+\.(rt|antt|pl|py|sh|md|txt)|\w+(/\w+)*/", name):
                if not is_file(name, line, crates):
                    yield f"docs/architecture.md: there is no file {name}"
            elif re.fullmatch(r"\w+((::|\.)\w+)*", name):
                unknown = [word for word in re.findall(r"\w+", name) if word not in words]
                yield from (f"docs/architecture.md: nothing is named {word}" for word in unknown)
    drawn = {word for block in text.split("```")[1::2] for word in re.findall(r"\b\w+_\w+\b", block)}
    yield from (f"docs/architecture.md: nothing is named {word}, which is drawn" for word in sorted(drawn - words))


def unnamed(name, needs):
    """The dependencies of a crate that none of its files names."""
    text = "\n".join(path.read_text() for path in files_of(name))

    def is_named(other):
        return re.search(rf"\b(use )?{other}(::|\.|\b\s*;)", text) or f"Rattle.{other}." in text

    return [other for other in needs if not is_named(other)]


def dead_paths(crates):
    """The files of definitions that pages name and that are not there. A file without a folder stands in that of the
    one before it in the line or the cell, and one without a crate in that of the headline, if it is of one crate."""
    for page in PAGES:
        headline = None
        for line in page.read_text().splitlines():
            if line.startswith("#"):
                names = re.findall(r"\w+", line.partition(":")[0])
                headline = names[0] if len(names) == 1 and names[0] in crates else None
            for cell in line.split("|"):
                folder = None
                for path in re.findall(r"`([\w/]+\.antt)`", cell):
                    *before, name = path.removeprefix("crates/").split("/")
                    if before[:1] == ["specs"] and headline:
                        before = [headline, *before]
                    if before:
                        folder = top.joinpath("crates", *before) if before[1:2] == ["specs"] else None
                    if folder and not (folder / name).exists():
                        yield f"{page.relative_to(top)}: {(folder / name).relative_to(top)} is not there"


def faults(text, groups, crates):
    yield from order_faults(crates)
    yield from row_faults(text, groups, crates)
    yield from drawing_faults(text, groups, crates)
    yield from dead_names(text, crates)
    for name, needs in crates.items():
        yield from (f"{name}: {other} is named by none of its files" for other in unnamed(name, needs))
    yield from dead_paths(crates)


def main():
    groups, crates = listed()
    if "--write" in sys.argv:
        page.write_text(made(page.read_text(), groups, crates))
    elif "--check" in sys.argv:
        found = list(faults(page.read_text(), groups, crates))
        print("\n".join(found) or f"{len(crates)} crates in {len(groups)} groups, each in its row")
        sys.exit(bool(found))
    else:
        high = floors(crates)
        for floor in range(max(high.values()), -1, -1):
            print(f"{floor:2} " + " ".join(name for name in crates if high[name] == floor))


if __name__ == "__main__":
    main()
