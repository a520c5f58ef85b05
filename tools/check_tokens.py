#!/usr/bin/env python3
"""Compares the table of docs/TOKENS.md with the definitions, the code, the oracle's tables and the published sources.

    check_tokens.py [SOURCES]

Compared are the number, name, text and value of each kind: with crates/token/specs/Kind.antt (numbers, names), crates/token/src/kind.rt (the same in
capitals), crates/token/src/lib.rt (values) and compare/oracle/tokens.py (texts); given SOURCES, the folder of the published Rust, also with the enum
`Token` of lexer/token.rs (names in their order) and the lexer's rules in language.rs (texts). Needs Python 3. Exit status 1 if something differs.
"""
import os
import re
import sys

ROOT = os.path.dirname(os.path.dirname(os.path.abspath(__file__)))
sys.dont_write_bytecode = True  # no compiled files beside the sources
sys.path.insert(0, os.path.join(ROOT, "compare", "oracle"))
import tokens

# how the code tests a value, and what the table says of it
VALUES = {"value < NAMES": "name number", "true": "64 bits", "value == 0": "0"}


def text_of(*path):
    with open(os.path.join(*path), encoding="utf-8") as file:
        return file.read()


def table():
    """the rows of the table: number, name, text, value"""
    rows = re.findall(r"^\| (\d+) \| (\w+) \| (.*?) ?\| (name number|64 bits|0) \|$", text_of(ROOT, "docs", "TOKENS.md"), re.MULTILINE)
    return [(int(number), name, text.replace("\\|", "|"), value) for number, name, text, value in rows]


def constants():
    found = re.findall(r"^pub const (\w+): u64 = (\d+);$", text_of(ROOT, "crates", "token", "src", "kind.rt"), re.MULTILINE)
    return [(int(number), name.replace("_", "")) for name, number in found]


def definitions():
    found = re.findall(r"^(\w+) = (\d+)$", text_of(ROOT, "crates", "token", "specs", "Kind.antt"), re.MULTILINE)
    return [(int(number), name) for name, number in found]


def values():
    """what `value_fits` says of each kind that it names, and of the others"""
    found = re.findall(r"^ +(kind::[\w: |]+|_) => (.*),$", text_of(ROOT, "crates", "token", "src", "lib.rt"), re.MULTILINE)
    return {name.replace("kind::", "").replace("_", "") or "OTHER": VALUES[test] for names, test in found for name in names.split(" | ")}


def published_names(sources):
    """the names of the published enum in their order"""
    body = re.search(r"pub enum Token \{(.*?)\n\}", text_of(sources, "lexer", "token.rs"), re.DOTALL).group(1)
    return re.findall(r"\w+", re.sub(r"//.*|\(\w+\)", "", body))


def published_texts(sources):
    """the texts of the published lexer by the token's name"""
    return dict(re.findall(r"^    \.add_rule\(\w+::new\(Token::(\w+), +['\"](.+)['\"]\)\)$", text_of(sources, "language.rs"), re.MULTILINE))


def differences(rows, sources):
    """a line for each thing that differs"""
    fits = values()
    if [(number, name) for number, name, _, _ in rows] != definitions():
        yield "numbers and names differ from crates/token/specs/Kind.antt"
    if [(number, name.upper()) for number, name, _, _ in rows] != constants():
        yield "numbers and names differ from crates/token/src/kind.rt"
    for number, name, text, value in rows:
        if value != fits.get(name.upper(), fits["OTHER"]):
            yield "%s: the value differs from crates/token/src/lib.rt" % name
        if number < tokens.NAME and text != "`%s`" % tokens.TEXTS[number].replace("^^", "^"):
            yield "%s: the text differs from compare/oracle/tokens.py" % name
    if len(rows) != len(tokens.TEXTS):
        yield "compare/oracle/tokens.py has another number of kinds"
    if sources and [name for _, name, _, _ in rows[:-1]] != published_names(sources):
        yield "names differ from the published enum `Token`"
    if sources and {name: text.strip("`") for number, name, text, _ in rows if number < tokens.NAME} != published_texts(sources):
        yield "texts differ from the published lexer's rules"


def main():
    rows = table()
    sources = sys.argv[1] if len(sys.argv) > 1 else None
    found = list(differences(rows, sources))
    for line in found:
        print(line)
    print("kinds=%d differences=%d%s" % (len(rows), len(found), "" if sources else "; not compared with the published sources: their folder is not given"))
    return 1 if found else 0


if __name__ == "__main__":
    sys.exit(main())
