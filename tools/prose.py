#!/usr/bin/env python3
"""Finds prose that a reader stumbles over: docstrings that begin with a pronoun, long paragraphs, long comment lines.

usage: tools/prose.py

A docstring stands alone where an editor shows it, so its first word names what it is about. A paragraph of a page has at
most 120 words; tables, lists of commands and code are none. A line of a comment has at most 120 columns. Prints a line
for each finding, and fails where there is one.
"""
import re
import sys
from pathlib import Path

top = Path(__file__).resolve().parent.parent
MOST_WORDS = 120
MOST_COLUMNS = 120
PRONOUN = re.compile(r"(The same|These|Those|It|They|This|That|Its|Their)\b")
DOC = re.compile(r"\s*(///|//!) ?(.*)")
COMMENT = re.compile(r"\s*(//|--)")
LIST_ITEM = re.compile(r"\s*([-*+]|\d+\.)\s")


def name(path):
    """A file as it is named in a finding."""
    return path.relative_to(top)


def sources(*endings):
    """The files of the crates with these endings, without what was built."""
    for path in sorted((top / "crates").rglob("*")):
        if path.suffix in endings and "out" not in path.relative_to(top).parts:
            yield path


def docstring_findings():
    """Docstrings that begin with a pronoun."""
    for path in sources(".rt"):
        before = None
        for number, line in enumerate(path.read_text().splitlines(), 1):
            doc = DOC.match(line)
            if doc and not before and PRONOUN.match(doc[2]):
                yield f"{name(path)}:{number}: begins with a pronoun: {doc[2]}"
            before = doc


def comment_findings():
    """Lines of comments that are too long."""
    for path in sources(".rt", ".antt"):
        for number, line in enumerate(path.read_text().splitlines(), 1):
            if COMMENT.match(line) and len(line) > MOST_COLUMNS:
                yield f"{name(path)}:{number}: {len(line)} columns"


def paragraphs(text):
    """The paragraphs and list items of a page, each with the number of its first line."""
    begin, words, fenced = 0, [], False
    for number, line in enumerate(text.splitlines(), 1):
        if line.startswith("```"):
            fenced = not fenced
        is_prose = line.strip() and not fenced and not line.startswith(("```", "|", "#", "<", "    "))
        if not is_prose or LIST_ITEM.match(line):
            yield begin, words
            begin, words = number, []
        if is_prose:
            begin = begin if words else number
            words = words + line.split()
    yield begin, words


def page_findings():
    """Paragraphs that are too long."""
    for path in [*sorted(top.glob("*.md")), *sorted((top / "docs").glob("*.md"))]:
        for number, words in paragraphs(path.read_text()):
            if len(words) > MOST_WORDS:
                yield f"{name(path)}:{number}: a paragraph of {len(words)} words"


def main():
    findings = [*docstring_findings(), *comment_findings(), *page_findings()]
    print("\n".join(findings) or "prose: nothing found")
    sys.exit(1 if findings else 0)


if __name__ == "__main__":
    main()
