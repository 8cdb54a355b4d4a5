#!/usr/bin/env python3
"""sentences.py [PAGE..]: names each sentence of a page that has too many words: more than 35 in README.md, more than 40 elsewhere.
Without a page: README, tutorial, operations and library. The status is 1 where a sentence is too long."""

import os
import re
import sys

LONGEST = {"README.md": 35}
LONGEST_ELSEWHERE = 40
TOP = os.path.dirname(os.path.dirname(os.path.realpath(__file__)))
PAGES = ("README.md", "docs/TUTORIAL.md", "docs/OPERATIONS.md", "docs/LIBRARY.md")


def prose(text):
    """The paragraphs, list items and table cells of a page, by their first line. Headings and fenced blocks have none."""
    found, paragraph, fenced = [], [], False
    for number, line in enumerate(text.split("\n"), 1):
        if line.startswith("```"):
            fenced, paragraph = not fenced, []
        elif fenced:
            continue
        elif line.startswith("|"):
            found += [[number, cell] for cell in re.split(r"(?<!\\)\|", line)[1:-1] if cell.strip(" :-")]
            paragraph = []
        elif not line.strip() or line.startswith("#"):
            paragraph = []
        elif paragraph and not re.match(r"\s*([-*]|\d+\.) ", line):
            paragraph[1] += " " + line
        else:
            paragraph = [number, line]
            found.append(paragraph)
    return found


def sentences(text):
    plain = re.sub(r"\]\([^)]*\)", "]", re.sub(r"`[^`]*`", "code", text))
    return [it for it in re.split(r"(?<=[.!?:])[\"')*]*\s+", plain) if it]


def words(sentence):
    return [it for it in sentence.split() if re.search(r"\w", it)]


def main(pages):
    too_long = 0
    for page in pages or [f"{TOP}/{it}" for it in PAGES]:
        name = os.path.relpath(page, TOP)
        longest = LONGEST.get(name, LONGEST_ELSEWHERE)
        with open(page, encoding="utf-8") as it:
            paragraphs = prose(it.read())
        for number, text in paragraphs:
            for sentence in sentences(text):
                if len(words(sentence)) > longest:
                    too_long += 1
                    print(f"{name}:{number}: {len(words(sentence))} words: {sentence[:100]} ..")
    print(f"sentences.py: {too_long} sentences are too long")
    return 1 if too_long else 0


if __name__ == "__main__":
    sys.exit(main(sys.argv[1:]))
