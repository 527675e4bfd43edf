#!/usr/bin/env python3
"""Commits whose first line does not name a crate or an area before a colon, or is longer than 72 characters.

usage: tools/commits.py [--count] [REVISION]

REVISION  commits after this one are looked at: after the last tag where it is left out, or the last 100 if there is no
          tag. Merges are passed over.
--count   says only how many there are

An area is a crate, the name of a file or a folder that stands at the top of the tree or that the commit changes
(`docs`, `tools`, `swi`, `must-fail`), or `make`. Several stand with commas between them. The status is 1 if there is
such a commit.
"""
import subprocess
import sys
from pathlib import Path, PurePosixPath

top = Path(__file__).resolve().parent.parent
MOST_CHARACTERS = 72
MOST_COMMITS = 100
# What changes, where no file has the name.
AREAS = {"make"}


def git(*words):
    return subprocess.run(["git", "-C", str(top), *words], capture_output=True, text=True, check=True).stdout


def crates():
    lines = (top / "crates.txt").read_text().splitlines()
    return {line.partition(":")[0].strip() for line in lines if not line.startswith("#")}


def names_in(paths):
    """The names of files, without and with their endings, and of the folders that they stand in."""
    parts = [part for path in paths for part in PurePosixPath(path).parts]
    return {name for part in parts for name in (part, part.partition(".")[0])}


def areas_before(line):
    """What stands before the colon of a first line, or nothing."""
    before, colon, _ = line.partition(": ")
    return [area.strip() for area in before.split(",")] if colon else []


def faults(line, known):
    """What is wrong with a first line, where these areas are known."""
    found = []
    areas = areas_before(line)
    if not areas or not set(areas) <= known:
        found.append("no crate or area")
    if len(line) > MOST_CHARACTERS:
        found.append(f"{len(line)} characters")
    return found


def commits(text):
    """The number, the first line and the changed files of each commit of a log, whose records begin with a NUL."""
    for record in text.split("\0")[1:]:
        number, line, *paths = record.splitlines()
        yield number, line, [path for path in paths if path]


def first(words):
    """The commits to look at, in the words of git log, and how so many of them are said."""
    try:
        after = words[0] if words else git("describe", "--tags", "--abbrev=0").strip()
    except subprocess.CalledProcessError:
        return [f"-{MOST_COMMITS}"], "the last {} commits"
    return [f"{after}.."], f"{{}} commits after {after}"


def main():
    words = [word for word in sys.argv[1:] if word != "--count"]
    if len(words) > 1 or any(word.startswith("-") for word in words):
        sys.exit(__doc__.split("\n\n")[1])
    chosen, said = first(words)
    try:
        log = git("log", "--no-merges", "--name-only", "--format=%x00%h%n%s", *chosen)
        known = AREAS | crates() | names_in(git("ls-tree", "--name-only", "HEAD").splitlines())
    except subprocess.CalledProcessError as error:
        sys.exit(error.stderr.strip())
    count = wrong = 0
    for number, line, paths in commits(log):
        count += 1
        found = faults(line, known | names_in(paths))
        wrong += bool(found)
        if found and "--count" not in sys.argv:
            print(f"{number} {', '.join(found)}: {line}")
    print(f"{wrong} of {said.format(count)} have no crate or area before a colon, or over {MOST_CHARACTERS} characters")
    sys.exit(bool(wrong))


if __name__ == "__main__":
    main()
