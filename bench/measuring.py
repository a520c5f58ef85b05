"""What bench/write and bench/labels share: the programs in C (bench/patterns takes these too), statements such as readings give, and the table of their times. README.md says what is measured."""
import argparse
import itertools
import os
import struct
import subprocess

HERE = os.path.dirname(os.path.abspath(__file__))
ROOT = os.path.dirname(HERE)
ORACLE = os.path.join(ROOT, "compare", "oracle")
from shapes import A, STATED, call, chain, count, integers, loop, rec, table
from published import warn  # in tools, where shapes looks too

MILLION = 1000000


def arguments(description):
    """the arguments that both commands take"""
    args = argparse.ArgumentParser(description=description, formatter_class=argparse.RawDescriptionHelpFormatter)
    args.add_argument("sources", nargs="?")
    args.add_argument("--tokens", default="1000,10000,60000")
    args.add_argument("--calls", type=int, default=201)
    args.add_argument("--seed", type=int, default=7301)
    args.add_argument("--build", help="keep what is built here")
    return args


def compiled(folder, program, *words):
    """a program of this folder; the words are libraries and what else the compiler is told"""
    subprocess.run(["cc", "-O3", "-pthread", "-I", os.path.join(ROOT, "host"), os.path.join(HERE, program + ".c"), *words,
                    "-o", os.path.join(folder, program)], check=True)


def said(folder, program, tree, *words):
    """what a program in a process of its own says of a statement; where the process does not end well, how it ends"""
    done = subprocess.run([os.path.join(folder, program), *words], input=tree, stdout=subprocess.PIPE)
    if done.returncode != 0:
        return "exit status %d" % done.returncode, None
    return "", dict(word.split("=") for word in done.stdout.decode().split())


def statements(folder, sources, seed, number):
    """statements that the published parser, with the documents' limits, gives for generated sheets"""
    warn(sources)
    subprocess.run([os.path.join(ORACLE, "build.sh"), sources, folder], check=True, stdout=subprocess.DEVNULL)
    sheets = subprocess.run([os.path.join(ORACLE, "gen.py"), "--family", "b", "--seed", str(seed), "--count", str(number)],
                            stdout=subprocess.PIPE, check=True).stdout
    answers = subprocess.run([os.path.join(folder, "oracle01")], input=sheets, stdout=subprocess.PIPE, check=True).stdout.decode()
    for answer in answers.split("answer=")[1:]:
        if answer.startswith("tree "):
            rows = [dict(word.split("=") for word in line.split()) for line in answer.splitlines()[1:] if line.startswith("kind=")]
            yield b"".join(rec(row["kind"], int(row["kids"]), int(row["value"])) for row in rows)


def timed(folder, trees, calls):
    """of statements that are handed in one behind the other: the tokens of each, and the seconds of all for each function"""
    source = b"".join(struct.pack("<Q", len(tree) // 8) + tree for tree in trees)
    lines = subprocess.run([os.path.join(folder, "timed"), str(calls)], input=source, stdout=subprocess.PIPE, check=True).stdout.decode().splitlines()
    return [int(word) for word in lines[0].split()], [float(word) for word in lines[1].split()]


def row(folder, name, trees, calls):
    """a row for statements that are handed in one behind the other"""
    numbers, seconds = timed(folder, trees, calls)
    number = sum(numbers)
    cells = ["{:,.1f}".format(s * 1e9 / number) for s in seconds] + ["%.3f" % (seconds[0] / s) for s in seconds[1:]]
    print("| {} | {:,} | {:,} | {:,} | {:,.1f} | {} |".format(
        name, len(trees), number, sum(map(count, trees)), seconds[0] * 1e6, " | ".join(cells)), flush=True)


def first(made, numbers, size):
    """the first of the statements, as many as have no more tokens together"""
    return [tree for tree, together in zip(made, itertools.accumulate(numbers)) if together <= size]


def groups(sizes, made, numbers):
    """the statements that are timed, with a name; those that were made have these numbers of tokens"""
    yield "`a;`", [A + STATED] * 1000
    for size in sizes:
        if made:
            yield "a sheet, statement by statement", first(made, numbers, size)
            yield "a loop over generated statements", [loop(first(made, numbers, size - 3))]
        yield "a sum", [chain(size // 2) + STATED]
        yield "a call", [call(integers(size // 2)) + STATED]
        yield "a table", [table(size // 5) + STATED]


def times(folder, calls, trees, others):
    """a table of the times of statements, which come with a name; others: the titles of what the second function gives"""
    titles = ["statements", "number", "tokens", "records", "µs", "ns a token", *others]
    print("\nProcessor time, median of %d calls:\n\n| %s |\n%s|" % (calls, " | ".join(titles), "|---" * len(titles)))
    for name, group in trees:
        row(folder, name, group, calls)
