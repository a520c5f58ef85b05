#!/usr/bin/env python3
"""Compares the table of the operators in the code with the page about it, the token kinds and the published sources.

    check_operators.py [SOURCES] [--rows]

Compared are the 308 numbers of crates/operator/src/table.rt: the names in its comments with docs/TOKENS.md, each line with its row of docs/OPERATORS.md; given SOURCES,
the folder of the published Rust, each number with what follows from parser.rs (`which_unary_op`, `which_binary_op`, `which_assignment_op`) and parser/operator.rs (the
places in the enums, `precedence_level`). --rows prints the rows that the page has to have, and compares nothing. Needs Python 3. Exit status 1 if something differs.
"""
import argparse
import os
import re
import sys

sys.dont_write_bytecode = True  # no compiled files beside the sources
ROOT = os.path.dirname(os.path.dirname(os.path.abspath(__file__)))
import check_tokens
from check_tokens import text_of

LINE = re.compile(r"^    \[(\d+), (\d+), (\d+), (\d+)\], // (\d+) (\w+)$", re.MULTILINE)


def lines():
    """the lines of the table: kind, name, the four numbers"""
    found = LINE.findall(text_of(ROOT, "crates", "operator", "src", "table.rt"))
    return [(int(row[4]), row[5], tuple(map(int, row[:4]))) for row in found]


def operators(name):
    """the names of a kind of operator by their numbers, as the code declares them"""
    text = text_of(ROOT, "crates", "operator", "src", "lib.rt")
    return re.findall(r"\w+", re.search(r"pub enum %s \{(.*?)\n\}" % name, text, re.DOTALL).group(1))


def rows():
    """the rows of the page: each line of the table with the names of what it says"""
    unary, binary = operators("UnaryOp"), operators("BinaryOp")
    texts = {number: text for number, _, text, _ in check_tokens.table()}
    for kind, name, (one, two, level, assigned) in lines():
        cells = [unary[one - 1] if one else "", binary[two - 1] if two else "", str(level) if level else "",
                 "" if not assigned else "plain" if assigned == 1 else binary[assigned - 2]]
        text = texts[kind].replace("|", "\\|")
        yield "| %d | %s | %s | %s | %d, %d, %d, %d |" % (kind, name, text, " | ".join(cells), one, two, level, assigned)


def published(sources, names):
    """the numbers of each token by the published files"""
    parser, operator = text_of(sources, "parser.rs"), text_of(sources, "parser", "operator.rs")

    def enum(name):
        return re.findall(r"\w+", re.sub(r"//.*", "", re.search(r"pub enum %s \{(.*?)\n\}" % name, operator, re.DOTALL).group(1)))

    def found(function, value):
        body = re.search(r"fn %s\(.*?\n    \}" % function, parser, re.DOTALL).group(0)
        return dict(re.findall(r"Token::(\w+) +=> %s," % value, body))

    unary, binary, assigned = found("which_unary_op", r"UnaryOp::(\w+)"), found("which_binary_op", r"BinaryOp::(\w+)"), found("which_assignment_op", r"(?:Some\(BinaryOp::)?(\w+)\)?")
    levels = {op: int(level) for ops, level in re.findall(r"((?:BinaryOp::\w+ *\|? *)+)=> (\d+),", operator) for op in re.findall(r"BinaryOp::(\w+)", ops)}
    for name in names:
        op = binary.get(name)
        yield (1 + enum("UnaryOp").index(unary[name]) if name in unary else 0,
               1 + enum("BinaryOp").index(op) if op else 0, levels[op] if op else 0,
               0 if name not in assigned else 1 if assigned[name] == "None" else 2 + enum("BinaryOp").index(assigned[name]))


def differences(sources):
    """a line for each thing that differs"""
    table = lines()
    if [(kind, name) for kind, name, _ in table] != [(number, name) for number, name, _, _ in check_tokens.table()]:
        yield "the kinds and names differ from docs/TOKENS.md"
    page = [row for row in text_of(ROOT, "docs", "OPERATORS.md").splitlines() if re.match(r"\| \d+ \|", row)]
    expected = list(rows())
    if len(page) != len(expected):
        yield "docs/OPERATORS.md has %d rows" % len(page)
    for one, two in zip(page, expected):
        if one != two:
            yield "docs/OPERATORS.md: %s is not %s" % (one, two)
    if sources:
        for (kind, name, numbers), other in zip(table, published(sources, [name for _, name, _ in table])):
            if numbers != other:
                yield "%s: %s, and by the published sources %s" % (name, numbers, other)


def main():
    args = argparse.ArgumentParser(description=__doc__, formatter_class=argparse.RawDescriptionHelpFormatter)
    args.add_argument("sources", nargs="?")
    args.add_argument("--rows", action="store_true", help="print the rows of the page")
    args = args.parse_args()
    if args.rows:
        print("\n".join(rows()))
        return 0
    found = list(differences(args.sources))
    for line in found:
        print(line)
    print("numbers=%d differences=%d%s" % (4 * len(lines()), len(found), "" if args.sources else "; not compared with the published sources: their folder is not given"))
    return 1 if found else 0


if __name__ == "__main__":
    sys.exit(main())
