"""What compare/writer and compare/labels share: the judgement whether words are a statement of a clean reading, limits aside, which does not use the proved code, and
the run of a proved entry over many trees. README.md says how a tree is judged; trials.py makes the trees that both try.
"""
import argparse
import array
import collections
import gc
import random
import re
import subprocess
import sys
import tempfile

import canonical

NO_STATEMENT = 65
BATCH = 2000000  # words judged at once
SHORT = 400  # words of a difference that are printed
EOF = "token=%d newline=0 value=0\n" % canonical.TOKEN["EOF"]
NAMES = canonical.NODES + ["NO-KIND"] * (256 - len(canonical.NODES))

# A tree to try: its words; and what is known of it beside the judgement: None, that it is not 65 (CLEAN), or its canonical tokens' words.
Trial = collections.namedtuple("Trial", "words known")
CLEAN = "clean"
# A call to compare: the tree's words, what the driver is given between their count and them, the number to expect and all words that the driver has to print.
Case = collections.namedtuple("Case", "words more number wanted")
Difference = collections.namedtuple("Difference", "which words asked wanted got")


def arguments(description, seeds, count):
    """what both commands are given; and Python made ready for many and deep trees"""
    args = argparse.ArgumentParser(description=description, formatter_class=argparse.RawDescriptionHelpFormatter)
    args.add_argument("sources")
    args.add_argument("--seeds", default=seeds)
    args.add_argument("--count", type=int, default=count)
    args.add_argument("--build", help="keep what is built here")
    sys.setrecursionlimit(1000000)  # tools/canonical.py recurses along a tree
    gc.disable()  # no tree has a cycle, and looking for one takes most of the time
    return args


def piped(command, given):
    """what a program prints for an input, both bytes"""
    with tempfile.TemporaryFile() as source:
        source.write(given)
        source.seek(0)
        return subprocess.run(command, stdin=source, stdout=subprocess.PIPE, check=True).stdout


def read(program, sheets):
    """what an oracle prints under each sheet; a sheet is its tokens' lines"""
    made = "".join("sheet\n" + sheet for sheet in sheets)
    printed = re.split("^sheet\n", piped(program, made.encode()).decode(), flags=re.MULTILINE)[1:]
    if len(printed) != len(sheets):
        sys.exit("compare: %s prints another number of sheets" % program[0])
    return printed


def lines(text):
    """the oracle's lines of tokens, given as two words each"""
    return "".join(["token=%d newline=0 value=%d\n" % pair for pair in zip(text[::2], text[1::2])])


def listing(words):
    """what an oracle prints of a sheet with this one tree"""
    rows = ["kind=%s kids=%d value=%d\n" % (NAMES[word % 256], word // 256, value) for word, value in zip(words[::2], words[1::2])]
    return "answer=tree nodes=%d\n%sanswer=end\n" % (len(rows), "".join(rows))


def read_back(oracle, many):
    """Of trees, given as words: their canonical tokens' words, by tools/canonical.py; the sheets of these; what an oracle prints that reads one as its tree; and
    the numbers of those that `oracle`, the published parser without limits, reads so. All others are 65.

    A text that it panics over, or that has a token that there is not, is not read back as any tree, so that it counts as 65 like an error."""
    decoded = [canonical.decode(words) for words in many]
    texts = [[word for token in canonical.statement(tree) for word in token] if tree else [] for tree in decoded]
    sheets = [lines(text) + EOF for text in texts]
    wanted = [listing(words) for words in many]
    readable = [number for number, printed in enumerate(read([oracle], sheets)) if decoded[number] and printed == wanted[number]]
    return texts, sheets, wanted, readable


def parts(trials):
    """the trials in batches of about as many words"""
    part, size = [], 0
    for trial in trials:
        part.append(trial)
        size += len(trial.words)
        if size > BATCH:
            yield part
            part, size = [], 0
    if part:
        yield part


class Comparison:
    """Runs a driver over trees and holds what it prints against a judgement.

    A command has its own `judged` (the verdicts of trees given as words; a verdict has a `number`), `cases` (of a trial with its verdict), `EXPECTED` (the numbers to
    count, each with what is printed for it) and `ASKED` (what is printed of a case's `more`)."""

    def __init__(self, oracle, driver):
        self.oracle, self.driver = oracle, driver
        self.rng = random.Random(0)
        self.counts = collections.Counter()
        self.differences = []

    def group(self, name, trials, *asked):
        """tries each tree with the cases that are asked for; gives the verdicts"""
        before, counts, verdicts = len(self.differences), collections.Counter(), []
        for part in parts(trials):
            found = self.judged([trial.words for trial in part])
            for trial, verdict in zip(part, found):
                self.differences += self.doubts(trial, verdict)
            counts.update(self.compared([case for trial, verdict in zip(part, found) for case in self.cases(trial, verdict, *asked)]))
            counts["trees"] += len(part)
            verdicts += found
        self.counts.update(counts)
        self.print_counts(name, counts, len(self.differences) - before)
        return verdicts

    def seeds(self, args, groups):
        """all groups of each seed"""
        for seed in map(int, args.seeds.split(",")):
            self.rng.seed(seed)
            groups(self, seed, args.count)

    def doubts(self, trial, verdict):
        """where the judgement contradicts what is known of a tree"""
        return [Difference("judgement", trial.words, "", trial.known, verdict)] if trial.known is not None and verdict.number == NO_STATEMENT else []

    def compared(self, cases):
        """runs the driver; counts what was expected"""
        given = b"".join(array.array("Q", [len(case.words), *case.more, *case.words]).tobytes() for case in cases)
        answers, at, counts = piped([self.driver], given), 0, collections.Counter()
        for case in cases:
            wanted = case.wanted.tobytes()
            got = answers[at:at + len(wanted)]
            at += len(wanted)
            counts[case.number] += 1
            if got != wanted:
                asked, found = self.ASKED % tuple(case.more), array.array("Q", got).tolist()
                self.differences.append(Difference("answer", case.words, asked, case.wanted.tolist(), found))
        if at != len(answers):
            sys.exit("compare: the driver prints more than was asked")
        return counts

    def print_counts(self, name, counts, differences):
        expected = " ".join("%s=%d" % (what, counts[number]) for number, what in self.EXPECTED.items())
        cases = sum(counts[number] for number in self.EXPECTED)
        print("%s: trees=%d cases=%d expected %s differences=%d" % (name, counts["trees"], cases, expected, differences), flush=True)

    def report(self):
        """prints the sums and the shortest differences; gives the exit status"""
        self.print_counts("all", self.counts, len(self.differences))
        for which, words, asked, wanted, got in sorted(self.differences, key=lambda found: len(found.words))[:3]:
            print("DIFFERENCE (%s) at the %d words %s\n%sexpected\n%s\nfound\n%s" % (which, len(words), words[:SHORT], asked, wanted[:SHORT], got[:SHORT]))
        return 1 if self.differences else 0
