#!/usr/bin/env python3
"""Makes the input of the program `replay`: fixed sheets with the answers of the published parser, what the writer makes of their trees, and
what the check of labels answers of those.

    make_sheets.py --build DIR [--oracle DIR] [--seeds 1,2] > crates/replay/stdin

DIR of --build holds oracle and oracle01, as `compare/oracle/build.sh SOURCES DIR` makes them; DIR of --oracle holds gen.py, limit.py, tokens.py,
tried.py and canonical.txt, by default compare/oracle. The same seeds give the same file. Needs Python 3.

Each sheet is run through both programs. Where they agree, the answers are those of the published parser unchanged. Where the
published parser panics, or goes past a limit of documents 01 and 02, they are those of oracle01, and the sheet stands in the group that says so.

The canonical tokens of the sheets in canonical.txt are the supplied ones. Those of any other records are judged: a model of the
definition (canonical.py) writes a tree, whatever it is, and the published parser reads that back. If this gives another tree or an
error, no clean reading gives the tree: 65. If oracle01 stops with 62, so does the writer. Else the model's tokens are written.

The check answers 65 where the writer does; else it is judged by the text of request P2 (compare/labels_rule.py).
"""
import argparse
import os
import random
import subprocess
import sys

sys.dont_write_bytecode = True  # no compiled files beside the sources
ROOT = os.path.dirname(os.path.dirname(os.path.abspath(__file__)))
sys.path.append(os.path.join(ROOT, "compare"))
import canonical
import labels_rule
import stored
import supplied

HEADER = """# Sheets with the answers that the published parser gave for them, what the writer makes of their trees, and what the check of labels
# answers of those. Made by
#   tools/make_sheets.py --oracle DIR --build DIR --seeds %(seeds)s
# from the sheets of document 01, gen.py's families a to f with these seeds, such sheets joined to nearly 500 tokens, sheets with a
# lexer error in the place of each token in turn and before it, sheets about requests P1 (the numbers 24, 28 and 32, the operators' levels),
# P3 (the depth), P4 (patterns) and P2 (labels that lead nowhere) of document 02, the sheets of canonical.txt, and trees of all but the joined ones,
# P1's, P3's and P4's, altered.
#
# s WORDS            a sheet: two words for each token, kind + 256 x newline, then the value; the line above it has its text
# t WORDS = READER   the next answer is a tree with these records, two words each
# e N = READER       an error with this number
# . = READER         the end
# x N = READER       a stop with this number
# READER is the reader behind the answer: its position in tokens, how many errors wait, and their numbers, the oldest first.
# a WORDS            records that the writer and the check get, in the place of a tree's
# w WORDS            the writer writes the records before this as these tokens, two words each
# n N                the writer writes nothing for the records before this, and answers this number
# l N I              the check of the records before this answers the number N, 0 where nothing is wrong, and the record number I
# >NAME              ends a group, whose counts are printed behind NAME
# Groups named `oracle01` have sheets at which the published parser panics or that go past a limit of documents 01 and 02; the answers
# there are those of the parser patched with the documents' own.
"""

# family, sheets for each seed, options of gen.py, tokens at least
FAMILIES = [
    ("a", 60, [], 0),
    ("b", 45, [], 0),
    ("b", 4, ["--depth", "6", "--max-tokens", "500"], 250),
    ("c", 45, [], 0),
    ("c", 4, ["--depth", "6", "--max-tokens", "500"], 250),
    ("d", 45, [], 0),
    ("e", 45, [], 0),
    ("f", 25, [], 0),
]

# values that an altered record gets: operators' and modifiers' numbers and one more, the ends of the names' range, the greatest word
VALUES = [0, 1, 2, 3, 4, 5, 17, 18, 39, 40, 43, 44, 4294967295, 4294967296, 8589934591, 8589934592, 18446744073709551615]

# the kinds that can have a label, and the kinds that can stand where a jump does, with as many children
LABELLED = labels_rule.JUMPS | labels_rule.LOOPS | {canonical.NODE["Block"]}
JUMPS = {canonical.NODE[one]: canonical.NODE[two] for one, two in (("Break", "Return"), ("Return", "Break"), ("Continue", "Absent"), ("Absent", "Continue"))}

# how many trees are altered in each way, and how many words they have at most
ALTERED = 120
SMALL = 100


def listing(binary, sheets, lines):
    """The answers of every sheet, as lines of the input; None for a sheet at which the program panicked."""
    text = "".join("sheet %d\n" % i + lines(toks) for i, toks in enumerate(sheets))
    out = subprocess.run([binary, "--state"], input=text.encode(), stdout=subprocess.PIPE, check=True).stdout.decode()
    kinds = subprocess.run([binary, "--kinds"], stdout=subprocess.PIPE, check=True).stdout.decode()
    number = {row.split()[1]: int(row.split()[0]) for row in kinds.splitlines() if row.strip()}
    return [answers(part.splitlines()[1:], number) for part in ("\n" + out).split("\nsheet ")[1:]]


def answers(rows, number):
    """The rows of one sheet as lines of the input, or None if the program panicked."""
    lines = []
    for row in rows:
        if row.startswith("answer="):
            word = row[len("answer="):].split(" ")[0]
            if word in ("panic", "stuck"):
                return None
            letter = {"tree": "t", "error": "e", "end": ".", "stopped": "x"}[word]
            words = [letter] if letter in "t." else [letter, row.split("number=")[1]]
        elif row.startswith("kind="):
            kind, kids, value = (field.split("=")[1] for field in row.split(" "))
            words += [str(number[kind] + 256 * int(kids)), value]
        elif row.startswith("state "):
            position, rest = row[len("state position="):].split(" waiting=")
            lines.append(" ".join(words + ["=", position, rest]))
    return lines


def judged(sheets, build, lines):
    """Every sheet with its answers, and whether they are the published parser's."""
    published = listing(os.path.join(build, "oracle"), sheets, lines)
    patched = listing(os.path.join(build, "oracle01"), sheets, lines)
    for toks, one, two in zip(sheets, published, patched):
        if two is None:
            sys.exit("make_sheets.py: oracle01 has no answer for a sheet")
        yield toks, two, one == two


def generated(oracle, family, seed, count, options, least):
    """Sheets of gen.py: the first `count` that have at least `least` tokens."""
    command = [os.path.join(oracle, "gen.py"), "--family", family, "--seed", str(seed), "--count", str(40 * count if least else count)]
    out = subprocess.run(command + options, stdout=subprocess.PIPE, check=True).stdout.decode()
    sheets = []
    for part in ("\n" + out).split("\nsheet ")[1:]:
        rows = [dict(field.split("=") for field in row.split(" ")) for row in part.splitlines()[1:]]
        sheets.append([(int(row["token"]), int(row["newline"]), int(row["value"])) for row in rows])
    return [toks for toks in sheets if least <= len(toks) <= 500][:count]


def joined(sheets, last):
    """The sheets one behind the other, each without its `EOF`, as many in each as 500 tokens hold."""
    found, now = [], []
    for toks in sheets:
        part = toks[:-1] if toks and toks[-1] == last else toks
        if 499 < len(now) + len(part):
            found.append(now + [last])
            now = []
        now = now + part
    return found


def damaged(toks, lexer_error):
    """The sheet with a lexer error in the place of each token in turn, and before each token."""
    for place in range(len(toks)):
        yield toks[:place] + [lexer_error] + toks[place + 1:]
        yield toks[:place] + [lexer_error] + toks[place:]


def records_of(row):
    """The records of a line `t`."""
    return tuple(int(word) for word in row.split(" = ")[0].split()[1:])


def written(trees, args, lines):
    """What the writer makes of each of these records, as a line of the input."""
    decoded = {words: canonical.decode(words) for words in trees}
    texts = {words: canonical.statement(tree) for words, tree in decoded.items() if tree}
    sheets = [[(kind, 0, value) for kind, value in text] for text in texts.values()]
    published = listing(os.path.join(args.build, "oracle"), sheets, lines)
    patched = listing(os.path.join(args.build, "oracle01"), sheets, lines)
    found = {words: "n 65" for words in trees}
    for (words, text), one, two in zip(texts.items(), published, patched):
        if one and len(one) == 2 and one[0].startswith("t ") and records_of(one[0]) == words and one[1].startswith(". "):
            found[words] = "n 62" if two[0].startswith("x 62") else text_row(text)
    return found


def text_row(text):
    return " ".join(["w"] + ["%d %d" % token for token in text])


def tree_rows(words, row):
    """The lines of the input about these records: the writer's, and the check's."""
    return [row, "l 65 0" if row == "n 65" else "l %d %d" % labels_rule.checked(words)]


def write_sheet(toks, rows, tokens, write):
    words = ["%d %d" % (kind + 256 * newline, value) for kind, newline, value in toks]
    write("# %s\n" % tokens.text(toks))
    write(" ".join(["s"] + words) + "\n")
    write("".join(row + "\n" for row in rows))


def group(name, sheets, args, tokens, write):
    """A group of sheets, or two: by the published parser, and by oracle01. Gives the trees."""
    found = list(judged(sheets, args.build, tokens.lines))
    trees = [records_of(row) for toks, rows, same in found for row in rows if row.startswith("t ")]
    texts = written(trees, args, tokens.lines)
    for ours, title in ((True, "published parser"), (False, "oracle01")):
        part = [(toks, rows) for toks, rows, same in found if same == ours]
        for toks, rows in part:
            both = [[row] + tree_rows(records_of(row), texts[records_of(row)]) if row.startswith("t ") else [row] for row in rows]
            write_sheet(toks, sum(both, []), tokens, write)
        if part:
            write(">%s, %s\n" % (name, title))
    return trees


def texts_of(run, rows, last):
    """The tokens of each statement of a run: as the published parser reads it, up to the semicolon where a tree ends."""
    begin, texts = 0, []
    for row in rows[:-1]:
        end = int(row.split(" = ")[1].split()[0]) + 1
        texts.append([(kind, value) for kind, newline, value in run[begin:end]])
        begin = end
    if run[begin:] != [last]:
        sys.exit("make_sheets.py: a run of canonical.txt does not end in EOF alone")
    return texts


def supplied_group(args, tokens, write):
    """The sheets of canonical.txt, each tree with its supplied tokens. Gives the trees."""
    sheets, runs = zip(*supplied.pairs(os.path.join(args.oracle, "canonical.txt")))
    trees = []
    oracle = os.path.join(args.build, "oracle")
    for toks, run, rows, again in zip(sheets, runs, listing(oracle, sheets, tokens.lines), listing(oracle, runs, tokens.lines)):
        if [records_of(row) for row in rows] != [records_of(row) for row in again]:
            sys.exit("make_sheets.py: a run of canonical.txt reads to other trees than its sheet")
        texts = texts_of(run, again, (tokens.EOF, 0, 0))
        both = [[row] + tree_rows(records_of(row), text_row(text)) for row, text in zip(rows, texts)]
        write_sheet(toks, sum(both, []) + rows[-1:], tokens, write)
        trees += [records_of(row) for row in rows[:-1]]
    write(">canonical tokens, supplied\n")
    return trees


def depth_groups(sheets, args, tokens, write):
    """Sheets about the depth. Then, for the writer alone, the trees that the published parser, which has no limit, gives for those that are too deep."""
    read = group("depth", sheets, args, tokens, write)
    rows = sum(listing(os.path.join(args.build, "oracle"), sheets, tokens.lines), [])
    trees = [records_of(row) for row in rows if row.startswith("t ")]
    records_group("depth, trees that are not read", [words for words in trees if words not in read], args, tokens, write)


def with_kind(records, at, kinds, draw):
    """Another kind, of every second record one that stands with as many children elsewhere."""
    count = records[at][0] // 256
    kind = draw.choice(kinds[count]) if draw.randrange(2) else draw.choice(list(range(60)) + [255])
    return records[:at] + [(kind + 256 * count, records[at][1])] + records[at + 1:]


def with_value(records, at, kinds, draw):
    """Another value, of every second record a low one."""
    value = draw.choice(VALUES if draw.randrange(2) else VALUES[:5])
    return records[:at] + [(records[at][0], value)] + records[at + 1:]


def with_count(records, at, kinds, draw):
    kind, count = records[at][0] % 256, records[at][0] // 256
    other = draw.choice([max(count - 1, 0), count + 1, count + 2, 2 ** 56 - 1])
    return records[:at] + [(kind + 256 * other, records[at][1])] + records[at + 1:]


def dropped(records, at, kinds, draw):
    return records[:at] + records[at + 1:]


def doubled(records, at, kinds, draw):
    return records[:at] + records[at:at + 1] + records[at:]


def swapped(records, at, kinds, draw):
    """Two records, each in the other's place."""
    other = draw.randrange(len(records))
    found = list(records)
    found[at], found[other] = found[other], found[at]
    return found


def deepened(records, at, kinds, draw):
    """Parentheses around a statement's last part, and about as many signs before them as may be."""
    from limit import DEPTH  # of args.oracle, as tokens is
    group = (canonical.NODE["Group"] + 256, 0)
    sign = (canonical.NODE["UnaryOp"] + 256, draw.randrange(4))
    return records[:-1] + [group] + [sign] * draw.randrange(DEPTH - 8, DEPTH + 1) + records[-1:]


def with_label(records, at, kinds, draw):
    """Another label, where the record can have one."""
    word, value = records[at]
    return records[:at] + [(word, draw.randrange(4) if word % 256 in LABELLED else value)] + records[at + 1:]


def with_jump(records, at, kinds, draw):
    """A break for a return, a continue for something absent, or the other way round."""
    word, value = records[at]
    kind = word % 256
    return records[:at] + [(word - kind + JUMPS.get(kind, kind), value)] + records[at + 1:]


WAYS = [
    ("a kind", with_kind),
    ("a value", with_value),
    ("a count", with_count),
    ("a record dropped", dropped),
    ("a record doubled", doubled),
    ("two records swapped", swapped),
    ("deep in signs", deepened),
]
LABEL_WAYS = [
    ("a label", with_label),
    ("a jump", with_jump),
]


def kinds_by_count(trees):
    """The kinds that stand with so many children in these trees."""
    found = {}
    for words in trees:
        for word in words[::2]:
            found.setdefault(word // 256, set()).add(word % 256)
    return {count: sorted(kinds) for count, kinds in found.items()}


def small_trees(trees):
    return [words for words in dict.fromkeys(trees) if len(words) <= SMALL]


def altered(trees, ways, title, args, tokens, write):
    """Trees with one thing altered, each way a group."""
    draw = random.Random(1)
    kinds = kinds_by_count(trees)
    small = small_trees(trees)
    for name, way in ways:
        found = []
        while len(found) < ALTERED:
            words = draw.choice(small)
            records = list(zip(words[::2], words[1::2]))
            other = tuple(word for record in way(records, draw.randrange(len(records)), kinds, draw) for word in record)
            if other != words and other not in found:
                found.append(other)
        records_group(title % name, found, args, tokens, write)


def altered_groups(trees, args, tokens, write):
    """Trees altered; and words that are no records."""
    altered(trees, WAYS, "altered, %s", args, tokens, write)
    first, second = small_trees(trees)[:2]
    records_group("no records", [(), (31,), first[:-1], first + (0,), first + second], args, tokens, write)


def label_groups(sheets, args, tokens, write):
    """Sheets about labels, and their trees with a label or a jump altered."""
    trees = group("labels", sheets, args, tokens, write)
    altered(trees, LABEL_WAYS, "labels, %s altered", args, tokens, write)


def records_group(name, found, args, tokens, write):
    for words, row in written(found, args, tokens.lines).items():
        rows = [" ".join(["a"] + [str(word) for word in words])] + tree_rows(words, row)
        write("".join(row + "\n" for row in rows))
    write(">%s\n" % name)


def main():
    parser = argparse.ArgumentParser(description=__doc__, formatter_class=argparse.RawDescriptionHelpFormatter)
    parser.add_argument("--oracle", default=os.path.join(ROOT, "compare", "oracle"))
    parser.add_argument("--build", required=True)
    parser.add_argument("--seeds", default="1,2")
    args = parser.parse_args()
    sys.path.insert(0, args.oracle)
    import tokens
    import tried
    write = sys.stdout.write
    write(HEADER % {"seeds": args.seeds})
    trees = group("document 01", [tokens.sheet(row) for row, _ in tried.TRIED], args, tokens, write)
    for family in "abcdef":
        sheets = []
        for seed in args.seeds.split(","):
            for name, count, options, least in FAMILIES:
                if name == family:
                    sheets += generated(args.oracle, family, int(seed), count, options, least)
        trees += group("family " + family, sheets, args, tokens, write)
    sheets = [toks for seed in args.seeds.split(",") for toks in generated(args.oracle, "mix", int(seed), 100, ["--max-tokens", "120"], 0)]
    group("joined to 500 tokens", joined(sheets, (tokens.EOF, 0, 0)), args, tokens, write)
    broken = [toks for row in stored.DAMAGED for toks in damaged(tokens.sheet(row), (tokens.LEXERR, 0, 0))]
    trees += group("lexer errors everywhere", broken, args, tokens, write)
    # the trees of the next three are not altered, those about labels in ways of their own; those of the other groups are, but for the joined ones
    group("numbers and levels", [tokens.sheet(row) for row in stored.NUMBERS + stored.mixed() + stored.PLACES], args, tokens, write)
    depth_groups([tokens.sheet(row) for row, _ in tried.DEPTHS], args, tokens, write)
    group("patterns", [tokens.sheet(row) for row in stored.patterns()], args, tokens, write)
    label_groups([tokens.sheet(row) for row in stored.LABELS], args, tokens, write)
    trees += supplied_group(args, tokens, write)
    altered_groups(trees, args, tokens, write)


if __name__ == "__main__":
    main()
