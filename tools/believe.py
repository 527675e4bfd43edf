#!/usr/bin/env python3
"""Which definitions a reader of the headline has to believe: all that the words of some clauses use, and what these use in turn.

usage: tools/believe.py            a count of lines for each rank, and the files of each rank
       tools/believe.py --names    each definition by itself
       tools/believe.py --whole    a count of lines for each promise by itself: all that its words use, procedures among them
       tools/believe.py --mark     writes each file's rank into its first line
       tools/believe.py --write    writes the counts of lines into the table of docs/definitions.md
       tools/believe.py --check    says which counts of that page, and which first lines, are old
       tools/believe.py --text RANK [RANK ..]
                                   the definitions of these ranks (yes, modes, reading, command, lists, loop, sessions, procedures), each after
                                   those that it uses, and before them the types of the code that they name; with `yes` the worked examples of
                                   terms, unification and resolution at the end

The ranks, each without those before: *for a Yes* (queries that meet a printed mode end), *for the modes* (the printed modes are exactly
the minimal ones), *for reading* (which program or query a text is, or where its fault is), *for the command* (all else that `command`
promises: statuses, words, valid certificates, runs), *procedures* (definitions that follow an algorithm, since they decide whose numbers do
not fit), *for the modes by lists* (what `lex` prints), *for a loop* (what `loop` prints, and that unification is complete),
*for sessions* (what `session` prints). All else in specs/ is private: a contract between functions, which the check has read.
"""
import re
import sys
import textwrap
from pathlib import Path

top = Path(__file__).resolve().parent.parent

# Where each rank begins: a crate, a file of its specs/, in whatever chapter, and names in it.
YES = [("cert_checker", "Bounding", ["ModesAreBounded"])]
READING = [("cti_top", "Programs", ["IsProgramOf", "IsRefused"]), ("cti_top", "Queries", None), ("cti_top", "Places", None)]
MODES = [("report", "Exact", ["IsExact"]), ("certificate", "Text", ["text_of"])]
LISTS = [("cti_top", "Lexed", None)]
COMMAND = [("cti_top", "Outcome", None)]
SESSIONS = [("cti_top", "Sessions", None)]
LOOP = [("cti_top", "Loops", None), ("loop_finder", "Finding", ["IsLooked"]), ("loop_finder", "Loop", ["GoesOn"]), ("cti_terms", "MostGeneral", None)]
PROCEDURES = {
    "linear_rows": {"Elimination", "Equation", "Cleaning", "Step", "Blown", "Solving", "Systems", "Irredundant"},
    "termination_model": {"BlownSupports", "SupportSystem", "ChainLicences", "Replacing", "ShortSystems"},
    "sparse_rows": None,
    "fourier": None,
}

# The promises by themselves, each with where its words begin. Nothing is left out of what these use.
PROMISES = {
    "a Yes of `check` (`ModesAreBounded`)": YES,
    "the bound of `lex` (`ModesAreBounded` of `lex_checker`)": [("lex_checker", "Bounding", ["ModesAreBounded"])],
    "`infer` (`IsInferred`)": [("cti_top", "Inferred", ["IsInferred"])],
    "`check` (`IsCheckOf`)": [("cti_top", "Checks", ["IsCheckOf"])],
    "`lex` (`IsLexed`)": [("cti_top", "Lexed", ["IsLexed"])],
    "a printed loop (`GoesOn`)": [("loop_finder", "Loop", ["GoesOn"])],
    "`loop` (`IsLoopSearchOf`)": [("cti_top", "Loops", ["IsLoopSearchOf"])],
    "`run` (`IsTextOfQuery`)": [("cti_top", "Runs", ["IsTextOfQuery"])],
    "`session` (`IsSessionOf`)": [("cti_top", "Sessions", ["IsSessionOf"])],
    "`command`, with words and files (`Outcome`)": [("cti_top", "Outcome", ["Outcome"])],
}

HEAD = re.compile(r"^(?:(?:abbrev|unfoldable) )?(?:pub )?(?:(?:(?:abbrev|unfoldable) )?(record|data) ([^\s:(){}]+)|([^\s:(){}]+) :)(?=\s|$)")


def definitions(text):
    """The definitions of a file, each with its text and the comment before it."""
    found, name, comment, inside = {}, None, [], None
    for line in text.split("\n"):
        said = line.lstrip()
        indent = len(line) - len(said)
        if not said or said.startswith(("use ", "pub use ", "unfoldable pub use ", "pub mod ")):
            continue
        if said.startswith(("module ", "mutual", "abbrev mutual")):
            # What stands in it is not part of a record before it.
            name, inside = None, None
            continue
        if said.startswith("--"):
            comment.append(line)
            continue
        if inside is not None and indent <= inside:
            inside = None
        match = HEAD.match(said) if inside is None and indent <= 4 else None
        if match:
            name = match.group(2) or match.group(3)
            inside = indent if match.group(1) else None
            found.setdefault(name, [])
        if name:
            found[name] += comment + [line]
        comment = []
    return found


USE = re.compile(r"^(?:(?:unfoldable )?pub )?use Rattle\.(\w+)\.specs\.([\w.]+)\.\{([^}]*)\}", re.M)
PASSED_ON = re.compile(r"^pub use Rattle\.(\w+)\.specs\.(?:\w+\.)*(\w+)$", re.M)


class Specs:
    """The files of specs/ by crate and last name, since no two chapters of a crate have files of the same name."""

    def __init__(self):
        self.files, self.uses, self.paths, self.passed_on = {}, {}, {}, {}
        for path in sorted(top.glob("crates/*/specs/**/*.antt")):
            key = (path.relative_to(top).parts[1], path.stem)
            if path.stem == "Lib":
                self.passed_on.update({(key[0], module): (crate, module) for crate, module in PASSED_ON.findall(path.read_text())})
            if path.stem == "Lib" or path.with_suffix("").is_dir():
                continue
            if key in self.paths:
                sys.exit(f"{self.shown_path(key)}: another file of this crate has this name: {path.relative_to(top)}")
            self.paths[key] = path
            self.files[key] = definitions(path.read_text())
        self.crates = {crate for crate, _ in self.files}
        for key, path in self.paths.items():
            self.uses[key] = {}
            for crate, module, names in USE.findall(path.read_text()):
                for name in names.split(","):
                    plain, _, other = name.strip().partition(" as ")
                    self.uses[key][other or plain] = self.place(key, crate, module, plain)

    def place(self, user, crate, module, name):
        """The crate, the file and the definition that a file's `use` means: a constructor's definition is that of its type."""
        *before, last = module.split(".")
        if before[:1] == ["declared"] or crate not in self.crates:
            return crate, module, name
        if (crate, last) in self.files:
            return crate, last, name
        if (crate, last) in self.passed_on:
            return (*self.passed_on[crate, last], name)
        if before and last in self.files.get((crate, before[-1]), {}):
            return crate, before[-1], last
        sys.exit(f"{self.shown_path(user)}: uses {module} of {crate}, which has no such file in specs/")

    def shown_path(self, key):
        """A file as pages name it, from its crate on."""
        return self.paths[key].relative_to(top / "crates").as_posix()

    def starting(self, starts):
        """The words with which a rank begins, each of which has to be there."""
        for crate, module, names in starts:
            key = (crate, module)
            if key not in self.files:
                sys.exit(f"{crate}: a rank begins in {module}.antt, and specs/ has no such file")
            for name in names or self.files[key]:
                if name not in self.files[key] and name not in self.uses[key]:
                    sys.exit(f"{self.shown_path(key)}: a rank begins with {name}, which is not there")
                yield crate, module, name

    def closure(self, starts, stop=lambda key: False):
        waiting = list(self.starting(starts))
        seen = set()
        while waiting:
            crate, module, name = waiting.pop()
            key = (crate, module)
            if key in self.files and name not in self.files[key] and name in self.uses[key]:
                waiting.append(self.uses[key][name])
            if key not in self.files or name not in self.files[key] or (key, name) in seen or stop(key):
                continue
            seen.add((key, name))
            for word in set(re.findall(r"[\w'-]+", "\n".join(line for line in self.files[key][name] if not line.lstrip().startswith("--")))):
                if word in self.files[key] and word != name:
                    waiting.append((crate, module, word))
                elif word in self.uses[key]:
                    waiting.append(self.uses[key][word])
        return seen


MARKS = {
    "for a Yes": "-- To believe, for a Yes.",
    "for the modes": "-- To believe, for the modes.",
    "for reading": "-- To believe, for reading.",
    "for the modes by lists": "-- To believe, for the modes by lists of mappings.",
    "for the command": "-- To believe, for the command.",
    "procedures": "-- A procedure, to believe for who is blown.",
    "for a loop": "-- To believe, for a loop.",
    "for sessions": "-- To believe, for sessions.",
    "private": "-- Private.",
}


def marked(specs, ranks):
    """Each file with its text under a first line that says the first rank which has a definition of the file."""
    for at, path in specs.paths.items():
        rank = next((title for title, found in ranks if any(key == at for key, _ in found)), "private")
        lines = path.read_text().split("\n")
        while lines[0] in MARKS.values():
            del lines[0]
        yield path, "\n".join([MARKS[rank]] + lines)


PAGE = top / "docs" / "definitions.md"
HEADLINE = re.compile(r"(?<=the first two ranks: )[\d,]+(?= lines)")


def whole_counts(specs):
    """The lines of all that each promise uses, with their comments and without."""
    for title, starts in PROMISES.items():
        lines = [line for key, name in specs.closure(starts) for line in specs.files[key][name]]
        yield title, len(lines), sum(not line.lstrip().startswith("--") for line in lines)


def counted_page(specs, ranks):
    """docs/definitions.md with the counts of today in its tables, and in the sentence on the first two ranks."""
    counts = {title: sum(len(specs.files[key][name]) for key, name in found) for title, found in ranks}
    page = PAGE.read_text()
    for title, count in counts.items():
        row = re.compile(rf"(?m)^(\| \*{title}\* \| .*\| )[\d,]+( \|)$")
        page, rows = row.subn(rf"\g<1>{count:,}\g<2>", page)
        if rows != 1:
            sys.exit(f"docs/definitions.md has {rows} rows for the rank {title}, and not one")
    for title, lines, plain in whole_counts(specs):
        row = re.compile(rf"(?m)^(\| {re.escape(title)} \| )[\d,]+ \| [\d,]+( \|)$")
        page, rows = row.subn(rf"\g<1>{lines:,} | {plain:,}\g<2>", page)
        if rows != 1:
            sys.exit(f"docs/definitions.md has {rows} rows for {title}, and not one")
    page, sentences = HEADLINE.subn(f"{counts['for a Yes'] + counts['for the modes']:,}", page)
    if sentences != 1:
        sys.exit("docs/definitions.md does not say how many lines the first two ranks have")
    return page


def check(specs, ranks):
    """The faults that --mark and --write mend; the exit status."""
    faults = [f"{path.relative_to(top)}: its first line says another rank (tools/believe.py --mark)"
              for path, text in marked(specs, ranks) if path.read_text() != text]
    for old, new in zip(PAGE.read_text().split("\n"), counted_page(specs, ranks).split("\n")):
        if old != new:
            faults.append(f"docs/definitions.md: its counts are old (tools/believe.py --write): {new[:40]}..{new[-12:]}")
    print("\n".join(faults) or "docs/definitions.md counts what has to be believed")
    return bool(faults)


# The words of the command line for the ranks, and the worked examples of what a Yes rests on.
WORDS = {
    "yes": "for a Yes", "modes": "for the modes", "reading": "for reading", "command": "for the command", "procedures": "procedures",
    "lists": "for the modes by lists", "loop": "for a loop", "sessions": "for sessions",
}
EXAMPLES = [("cti_terms", "Examples"), ("cti_terms", "ArithmeticExamples")]


def in_order(specs, wanted):
    """The files of some definitions, each behind those whose wanted definitions it uses."""
    keys = sorted({key for key, _ in wanted})
    before = {key: {(crate, module) for crate, module, name in specs.uses[key].values() if ((crate, module), name) in wanted} - {key} for key in keys}
    order, seen = [], set()

    def visit(key):
        if key not in seen:
            seen.add(key)
            for other in sorted(before[key]):
                visit(other)
            order.append(key)

    for key in keys:
        visit(key)
    return order


def head(path):
    """A file's first comment."""
    lines = []
    for line in path.read_text().split("\n"):
        if not line.startswith("--"):
            break
        lines.append(line)
    return lines


def shown(first):
    """A file's first comment without its rank and without the sentence on what in it has to be believed."""
    parts, part = [], []
    for line in [line for line in first if line not in MARKS.values()] + ["--"]:
        if line == "--" or line.startswith(("-- Source:", "-- To believe")):
            parts.append(part)
            part = []
        if line != "--":
            part.append(line)
    parts.append(part)
    for n, part in enumerate(parts):
        if part and part[0].startswith("-- To believe"):
            rest = re.sub(r"^To believe.*?\.(?:\s+(?=[A-Z`])|$)", "", " ".join(line[3:] for line in part))
            parts[n] = textwrap.wrap(rest, 117, initial_indent="-- ", subsequent_indent="-- ")
    return "\n--\n".join("\n".join(part) for part in parts if part)


def types_of(specs, wanted):
    """The types of the code that the definitions name, each with the text that declares it, in the order of crates.txt."""
    found = {}
    for key, name in sorted(wanted):
        words = set(re.findall(r"\w+", "\n".join(specs.files[key][name])))
        for word, (crate, module, plain) in specs.uses[key].items():
            if module.startswith("declared.") and word in words:
                found[module.split(".")[2] if module.endswith("TheVariants") else plain] = (crate, module.split(".")[1])
    order = [line.split(":")[0] for line in (top / "crates.txt").read_text().split("\n")]
    for name, (crate, module) in sorted(found.items(), key=lambda it: (order.index(it[1][0]), it[1][1], it[0])):
        path = top / "crates" / crate / "src" / f"{module}.rt"
        text = path.read_text() if path.exists() else ""
        match = re.search(rf"(?m)((?:^///.*\n)*)(?:^#.*\n)*(^pub (?:struct|enum) {name}\b(?:[^{{;]*\{{[\s\S]*?^\}}|.*;))", text)
        if match:
            yield f"{crate}/src/{module}.rt", match[1] + match[2]


def print_text(specs, wanted, examples):
    """Prints the types of the code, definitions file by file, in the order of in_order, and then the worked examples."""
    print("-- ==== the types of the code that the definitions name. There a list type, as Terms or Atoms, is seen as the list, and a number")
    print("-- of a machine's width as a whole number.")
    last = None
    for where, text in types_of(specs, wanted):
        print(("" if where == last else f"\n-- {where}") + "\n" + text)
        last = where
    for key in in_order(specs, wanted):
        print(f"\n-- ==== {specs.shown_path(key)}")
        first = head(specs.paths[key])
        print(shown(first))
        for name, lines in specs.files[key].items():
            if (key, name) in wanted:
                print("\n" + "\n".join(lines[len(first):] if lines[:len(first)] == first else lines))
    for crate, module in examples:
        path = top / "crates" / crate / "proofs" / f"{module}.antt"
        print(f"\n-- ==== {crate}/proofs/{module}.antt")
        print("\n".join(line for line in path.read_text().split("\n") if not line.startswith("use ")))


def main():
    specs = Specs()
    for crate, modules in PROCEDURES.items():
        for module in sorted(modules or set()):
            if (crate, module) not in specs.files:
                sys.exit(f"{crate}: {module}.antt is a procedure, and specs/ has no such file")

    def follows_an_algorithm(key):
        modules = PROCEDURES.get(key[0], set())
        return modules is None or key[1] in modules

    yes = specs.closure(YES, follows_an_algorithm)
    modes = specs.closure(MODES, follows_an_algorithm) - yes
    reading = specs.closure(READING, follows_an_algorithm) - yes - modes
    apart = lambda key: key in (LISTS[0][:2], LOOP[0][:2], SESSIONS[0][:2])
    known = yes | modes | reading
    command = specs.closure(COMMAND, lambda key: apart(key) or follows_an_algorithm(key)) - known
    procedures = specs.closure(COMMAND, apart) - known - command
    lists = specs.closure(LISTS) - known - command - procedures
    loop = specs.closure(LOOP) - known - command - procedures - lists
    sessions = specs.closure(SESSIONS) - known - command - procedures - lists - loop
    ranks = [("for a Yes", yes), ("for the modes", modes), ("for reading", reading), ("for the command", command)]
    ranks += [("procedures", procedures), ("for the modes by lists", lists), ("for a loop", loop), ("for sessions", sessions)]
    everything = {(key, name) for key, names in specs.files.items() for name in names}
    ranks.append(("private", everything - known - command - procedures - lists - loop - sessions))
    if "--mark" in sys.argv:
        for path, text in marked(specs, ranks):
            path.write_text(text)
        return
    if "--whole" in sys.argv:
        for title, lines, plain in whole_counts(specs):
            print(f"{title}: {lines} lines, {plain} without comments")
        return
    if "--write" in sys.argv:
        PAGE.write_text(counted_page(specs, ranks))
        return
    if "--check" in sys.argv:
        sys.exit(check(specs, ranks))
    if "--text" in sys.argv:
        words = sys.argv[sys.argv.index("--text") + 1:]
        if not words or not set(words) <= set(WORDS):
            sys.exit(f"--text takes ranks: {' '.join(WORDS)}")
        titles = {WORDS[word] for word in words}
        wanted = set().union(*(found for title, found in ranks if title in titles))
        print_text(specs, wanted, EXAMPLES if "yes" in words else [])
        return
    for title, found in ranks:
        lines = sum(len(specs.files[key][name]) for key, name in found)
        print(f"{title}: {lines} lines, {len(found)} definitions, {len({key for key, _ in found})} files")
        if title == "private" and "--names" not in sys.argv:
            continue
        for key in sorted({key for key, _ in found}):
            names = sorted(name for at, name in found if at == key)
            count = sum(len(specs.files[key][name]) for name in names)
            print(f"  {specs.shown_path(key)} {count}" + (": " + ", ".join(names) if "--names" in sys.argv else ""))


main()
