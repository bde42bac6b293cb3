#!/usr/bin/env python3
"""Lists lemmas whose statements stand in two crates, word by word.

    wip/twice.py          at the top of the repository

A statement is the text from the colon to the definition, without its line breaks; names of variables count.
"""
import collections
import os
import re

NAMED = re.compile(r"^(\s*)(?:abbrev )?(?:pub )?([^\s:{(]+) : (.*)$")


def statements(path):
    """The names and the statements of a file."""
    with open(path) as file:
        lines = file.read().split("\n")
    for at, line in enumerate(lines):
        found = NAMED.match(line)
        if not found:
            continue
        told, end = [found[3]], at + 1
        defined = re.compile(r"^\s*" + re.escape(found[2]) + r"( |$)")
        while end < len(lines) and lines[end].strip() and not defined.match(lines[end]):
            told.append(lines[end].strip())
            end += 1
        if end < len(lines) and defined.match(lines[end]):
            yield found[2], re.sub(r"\s+", " ", " ".join(told))


def main():
    where = collections.defaultdict(list)
    for at, folders, files in os.walk("crates"):
        folders[:] = sorted(set(folders) - {"out"})
        for name in sorted(files):
            if not name.endswith(".antt"):
                continue
            path = f"{at}/{name}"
            for lemma, statement in statements(path):
                # goals are named by the prover, and types of functions alone are no statements
                if "goal." not in statement and len(statement) > 25 and ("≡" in statement or "≤" in statement or "⊥" in statement):
                    where[statement].append((path.split("/")[1], lemma, path))
    for statement, places in sorted(where.items()):
        if len({crate for crate, _, _ in places if not crate.startswith("tests_")}) > 1:
            print(statement)
            for _, lemma, path in places:
                print(f"    {lemma}  {path}")


if __name__ == "__main__":
    main()
