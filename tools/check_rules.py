#!/usr/bin/env python3
"""Holds docs/RULES.md against the definitions: each file that a row names is there, and each name of a row stands in one of that row's files.

    tools/check_rules.py

A row is rule, definition, file and, in some tables, what is shown. A name is what stands between backquotes; a file without a crate is in crates/grammar/specs.
Names of node kinds and tokens, which tell a line of a definition, are not looked up. Exit status 1 if something is missing.
"""
import os
import re
import sys

ROOT = os.path.dirname(os.path.dirname(os.path.abspath(__file__)))
FILE = re.compile(r"[\w/]+\.(?:antt|rt)")
NAME = re.compile(r"`([^`]+)`")
SHOWN = re.compile(r"((?:`[^`]+`(?:, )?)+) \(([^)]*\.antt)\)")
NOT_LOOKED_UP = {"..", "End", "EOF", "ExprBlock", "TuplePattern", "Modifier", "Pack"}


def text_of(name, missing):
    path = os.path.join(ROOT, name if name.startswith("crates/") else "crates/grammar/specs/" + name)
    if not os.path.exists(path):
        missing.append("no file " + name)
        return ""
    with open(path) as file:
        return file.read()


def look_up(names, files, missing):
    text = "\n".join(text_of(name, missing) for name in files)
    for name in names:
        if name not in NOT_LOOKED_UP and not re.search(r"(?<![\w-])%s(?![\w-])" % re.escape(name), text):
            missing.append("no %s in %s" % (name, ", ".join(files)))


def check(row, missing):
    cells = [cell.strip() for cell in row.strip().strip("|").split(" | ")]
    if len(cells) < 3:
        return 0
    files = FILE.findall(cells[2])
    names = NAME.findall(cells[1])
    if files:
        look_up(names, files, missing)
    for shown, file in SHOWN.findall(" ".join(cells[3:])):
        look_up(NAME.findall(shown), [file], missing)
        names += NAME.findall(shown)
    return len(names)


def main():
    missing = []
    with open(os.path.join(ROOT, "docs", "RULES.md")) as page:
        names = sum(check(line, missing) for line in page if line.startswith("| "))
    for line in missing:
        print(line)
    print("names=%d missing=%d" % (names, len(missing)))
    return 1 if missing else 0


if __name__ == "__main__":
    sys.exit(main())
