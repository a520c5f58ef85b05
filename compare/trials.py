"""Trees to try for compare/writer and compare/labels: those that the published parser reads from generated sheets, changed and altered ones, and ones that are drawn.

A tree is (kind, value, [trees]) as in tools/canonical.py, its words those of its records (docs/TREE.md).
"""
import collections
import re

from programs import generated
import canonical
import trees
from judging import CLEAN, Trial, read

FAMILIES = "abcdef"  # of oracle/gen.py
MOST_WORDS = 4000  # of a tree that is drawn, before it stands in a longer one
MOST_CHANGED = 100  # records of a tree that is changed in every way
NO_TREES = [(), (0,), (0, 0), (31, 7), (258, 0), (2, 0, 31, 7), (31, 7, 258), (31, 7, 258, 0, 0), (31, 7, 31, 7, 258, 0)]


def words_of(tree):
    return trees.words(trees.records(tree))


def rows_of(words):
    return list(zip(words[::2], words[1::2]))


def readings(oracle, sheets):
    """of each sheet the trees' words with the position behind each, and whether the reading is clean"""
    found = []
    for printed in read([oracle, "--state"], sheets):
        given = []
        for answer in printed.split("answer=tree")[1:]:
            rows = re.findall(r"^kind=(\w+) kids=(\d+) value=(\d+)$", answer, re.MULTILINE)
            position = int(re.search("^state position=([0-9]+)", answer, re.MULTILINE).group(1))
            given.append(([word for kind, kids, value in rows for word in (canonical.NODE[kind] + 256 * int(kids), int(value))], position))
        found.append((given, set(re.findall("^answer=([a-z]+)", printed, re.MULTILINE)) <= {"tree", "end"}))
    return found


def read_trials(oracle, seed, count):
    """the trees that the published parser reads from generated sheets, each once"""
    found = {}
    for family in FAMILIES:
        made = generated("--family", family, "--seed", str(seed), "--count", str(count))
        sheets = [sheet.partition("\n")[2] for sheet in re.split("^sheet ", made, flags=re.MULTILINE)[1:]]
        for given, clean in readings(oracle, sheets):
            for words, _ in given:
                found[tuple(words)] = CLEAN if clean else found.get(tuple(words))
    return [Trial(list(words), known) for words, known in found.items()]


def changed_trials(rng, many, count):
    """for each kind of node `count` places where it stands, and there every change of trees.changes"""
    places = collections.defaultdict(list)
    for rows in map(rows_of, many):
        for at, (word, _) in enumerate(rows if len(rows) <= MOST_CHANGED else []):
            places[word % 256].append((rows, at))
    chosen = [place for kind in sorted(places) for place in rng.sample(places[kind], min(count, len(places[kind])))]
    made = {tuple(trees.words(rows)) for place in chosen for rows in trees.changes(*place)}
    return [Trial(list(words), None) for words in sorted(made)]


def altered_trials(rng, many, count):
    """trees altered with parts of each other, each once, and words that are no tree"""
    rows = list(map(rows_of, many))
    made = {tuple(trees.altered(rng, rng.choice(rows), rng.choice(rows))) for _ in range(count)}
    return [Trial(list(words), None) for words in sorted(made | set(NO_TREES))]


def drawn(rng, sort, depths, count, chances=(0, 0.02, 0.1)):
    """statements of a sort, nested up to so many depths, each once; with these chances of what does not stand where it is put"""
    found = {}
    while len(found) < count:
        made = sort(rng, rng.choice(chances)).statement(rng.choice(depths))
        words = words_of(made)
        if len(words) <= MOST_WORDS:
            found[tuple(words)] = made
    return list(found.values())
