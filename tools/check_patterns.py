#!/usr/bin/env python3
"""Holds docs/PATTERNS.md against the sample sheet, the two steps and the code that calls them.

    tools/check_patterns.py [--print]

- The records before and after are those of the first two statements of sheets/patterns.listing, which sheets/check compares with treelist's.
- The turns are those of a transcription of can_be_pattern and move_to_pattern, over records in the place of words; it has to come to the listing's records.
- The two steps are called in expect_pattern alone; expect_pattern is called, and the numbers 16 and 26 stand, in the code and in the definition of
  reading only where the page's table of places says.

Prints what differs, and how many lines of the page were held against something. --print prints the tables of records and turns instead. Exit status 1
if something differs. Needs Python 3.
"""
import glob
import os
import re
import sys

ROOT = os.path.dirname(os.path.dirname(os.path.abspath(__file__)))
NAMES = "plan fees years rate rest".split()
NAMED = {"Identifier", "Attribute", "IdentifierPattern", "AttributePattern"}
MODIFIERS = {"Group": {3: "`let`"}, "Modifier": {2: "`let`"}}


def read(*path):
    with open(os.path.join(ROOT, *path)) as file:
        return file.read()


def statements():
    """the records of each tree of the listing, as (kind, kids, value)"""
    record = re.compile(r"kind=(\w+) kids=(\d+) value=(\d+)")
    return [[(kind, int(kids), int(value)) for kind, kids, value in record.findall(part)] for part in read("sheets", "patterns.listing").split("answer=")[1:]]


def shown(record):
    """a record's kind, with the name or modifier that it has or the number of a list's members"""
    kind, kids, value = record
    if kind in NAMED:
        return "`%s` %s" % (kind, NAMES[value])
    if kind == "List":
        return "`List` of %d" % kids
    if kind == "IntegerLiteral":
        return "`IntegerLiteral` %d" % value
    return "`%s`" % kind + (" " + MODIFIERS[kind][value] if MODIFIERS.get(kind, {}).get(value) else "")


def listed(store, first, end):
    return ", ".join("%d %s" % (at, shown(store[at])) for at in range(first, end))


def skip(store, to, need):
    while need:
        to -= 1
        need += store[to][1] - 1
    return to


def can_be_pattern(store, end):
    """the turns of the first step, and its answer"""
    i, turns = end, []
    while i:
        at, (kind, _, _) = i - 1, store[i - 1]
        if kind in ("Identifier", "Group"):
            asked, i = "nothing more", at
        elif kind == "Unpack":
            absent = store[at - 1][0] == "Absent"
            asked, i = "is what it has, at %d, `Absent`? %s" % (at - 1, "yes" if absent else "no"), at - absent
        elif kind == "Tuple" and store[at - 1][0] == "List" and store[at - 1][1]:
            asked, i = "has its list, at %d, members? yes, %d" % (at - 1, store[at - 1][1]), at - 1
        elif kind == "Primary" and store[at - 1][0] == "List" and store[at - 1][1] and store[at - 2][0] in ("Attribute", "Index"):
            n, last = store[at - 1][1], store[at - 2][0]
            i = skip(store, at - 2, n + (last == "Index"))
            asked = "has its path, at %d, items? yes, %d; is the last one, at %d, an `Attribute` or an `Index`? yes; the access begins at %d" % (at - 1, n, at - 2, i)
        else:
            return turns, False
        turns.append((at, kind, asked, i))
    return turns, True


def move_access(store, i, w):
    """the access before i becomes its pattern, which ends before w; gives where the access began and what was written"""
    by, (_, n, path), primary = w - i, store[i - 2], store[i - 1]
    last = store[i - 3]
    if last[0] == "Attribute":
        middle = i - 3
        store[w - 1] = ("AttributePattern", 1, last[2])
    else:
        middle = skip(store, i - 3, 1)
        store[w - 1] = ("IndexPattern", 2, 0)
        store[middle + by + 2:w - 1] = store[middle:i - 3]
    start = skip(store, middle, n)
    store[middle + by:middle + by + 2] = [("List", n - 1, path), primary]
    store[start + by:middle + by] = store[start:middle]
    return start


def move_to_pattern(store, end):
    """the turns of the second step, and where the pattern ends"""
    i, w, turns = end, end, []
    while i:
        at, (kind, _, value), before = i - 1, store[i - 1], w
        if kind == "Identifier":
            i, w = at, w - 1
            store[w] = ("IdentifierPattern", 0, value)
        elif kind == "Group":
            i = at
            if value:
                w -= 1
                store[w] = ("Modifier", 1, value - 1)
        elif kind == "Primary":
            start = move_access(store, i, w)
            i, w = start, start + w - i
        else:
            size = 2 if kind == "Tuple" or store[at - 1][0] == "Absent" else 1
            inner = store[at - 1]
            store[w - 1] = ("Pack" if kind == "Unpack" else "TuplePattern", 1, 0)
            if size == 2:
                store[w - 2] = inner
            i, w = i - size, w - size
        turns.append((at, kind, listed(store, w, before) or "nothing: the group vanishes", i, w))
    store[:end - w] = store[w:end]
    return turns, end - w


def table(head, rows):
    return ["| " + " | ".join(head) + " |", "|" + "---|" * len(head)] + ["| " + " | ".join(str(cell) for cell in row) + " |" for row in rows]


def tables(wrong):
    expression, assignment = statements()[:2]
    before, store = expression[:-1], expression[:-1]
    deciding, answer = can_be_pattern(store, len(store))
    moving, end = move_to_pattern(store, len(store))
    if not answer or store[:end] != assignment[:end] or assignment[end:] != [("Identifier", 0, len(NAMES)), ("Assignment", 2, 0), ("Expression", 1, 0)]:
        wrong.append("the transcription does not come to the listing's records")
    rows = [(n, shown(before[n]), shown(store[n]) if n < end else "") for n in range(len(before))]
    return [
        table(("record", "before", "after"), rows),
        table(("turn", "record", "kind", "what is asked", "goes on before"), [(n + 1, at, "`%s`" % kind, asked, i) for n, (at, kind, asked, i) in enumerate(deciding)]),
        table(("turn", "record", "kind", "what is written", "goes on before", "writes before"),
              [(n + 1, at, "`%s`" % kind, written, i, w) for n, (at, kind, written, i, w) in enumerate(moving)]),
    ]


def uses(files, pattern, function):
    """(function, what was found) for each use of a pattern in these files, comments and declarations left out"""
    found = []
    for path in sorted(files):
        name = None
        for line in read(path).split("\n"):
            declared = re.match(function, line)
            name = declared.group(1) if declared else name
            if not declared and not re.match(r"\s*(//|--|use |ghost use |abbrev pub |pub const )", line):
                found += [(name, use) for use in re.findall(pattern, line)]
    return sorted(found)


def callers(page, wrong):
    rows = re.findall(r"^\| [^|]* \| `parse_\w+` \| `(\w+)` \| `(\w+)` \| (\d+) \|$", page, re.M)
    code = [os.path.relpath(path, ROOT) for path in glob.glob(os.path.join(ROOT, "crates/*/src/*.rt"))]
    reading = [os.path.relpath(path, ROOT) for path in glob.glob(os.path.join(ROOT, "crates/grammar/specs/Reading/*.antt"))]
    number = {"CANNOT_ASSIGN": "16", "FUNCTION_TARGET": "26", "cannot_assign": "16", "function_target": "26"}
    fn, definition = r"(?:pub )?(?:extern \"C\" )?fn (\w+)", r"(?:pub |unfoldable pub |abbrev )*(\w+) : "
    steps = uses(code, r"\b(can_be_pattern|move_to_pattern)\(", fn)
    if steps != [("expect_pattern", "can_be_pattern"), ("expect_pattern", "move_to_pattern")]:
        wrong.append("the two steps are called so: %s" % steps)
    ours, theirs = sorted((f, n) for _, f, n in rows), sorted((d, n) for d, _, n in rows)
    for title, files, function, expected, call, constant in (
            ("code", code, fn, ours, r"\bexpect_pattern\(store, cursor\.at, number::(\w+)", r"number::(CANNOT_ASSIGN|FUNCTION_TARGET)"),
            ("definition", reading, definition, theirs, r"expect_pattern Number\.(\w+)", r"Number\.(cannot_assign|function_target)")):
        for pattern in (call, constant):
            found = sorted((name, number[constant]) for name, constant in uses(files, pattern, function))
            if found != expected or not found:
                wrong.append("the page has %s, the %s %s" % (expected, title, found))
    return len(rows)


def main():
    wrong = []
    made = tables(wrong)
    if sys.argv[1:] == ["--print"]:
        print("\n\n".join("\n".join(rows) for rows in made))
        return 0
    page = read("docs", "PATTERNS.md")
    held = callers(page, wrong)
    for rows in made:
        held += len(rows) - 2
        if "\n".join(rows) not in page:
            wrong.append("the page has another table than\n" + "\n".join(rows))
    for line in wrong:
        print(line)
    print("lines=%d wrong=%d" % (held, len(wrong)))
    return 1 if wrong else 0


if __name__ == "__main__":
    sys.exit(main())
