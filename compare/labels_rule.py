"""The judgement of labels, in the words of request P2 of document 02 and without the proved code: for compare/labels, and for tools/make_sheets.py.

It is of the words of a statement that a clean reading gives; 65, for all other words, is judged before. What stands round a node is a row of (kind, value), the
outermost first. compare/labels tries it on closed statements.
"""
import collections

from canonical import NODE  # of tools, which the programs that import this have on their path

WITH_LABEL, WITHOUT_LABEL = 67, 68
LOOPS = {NODE["Loop"], NODE["WhileLoop"], NODE["ForLoop"]}
JUMPS = {NODE["Break"], NODE["Continue"]}

# What is judged of a tree: 0, 65, 67 or 68, and the record number.
Verdict = collections.namedtuple("Verdict", "number record")


def round_child(kind, value, is_last, around):
    """what stands round a node's child, where the row stands round the node"""
    if kind in LOOPS and is_last or kind == NODE["Block"]:
        return around + ((kind, value),)
    if kind == NODE["FunctionDef"] and is_last:
        return ()
    return around


def leads(kind, value, around):
    """whether a break or a continue leads somewhere: without a label any serves, with one any that has it"""
    return any((other in LOOPS or kind == NODE["Break"]) and value in (0, label) for other, label in around)


def children(rows):
    """of each record the numbers of its children's records"""
    found, open_ = [], []
    for number, (word, _) in enumerate(rows):
        first = len(open_) - word // 256
        found.append(open_[first:])
        open_[first:] = [number]
    return found


def checked(words):
    """the answer for a statement of a clean reading"""
    rows = list(zip(words[::2], words[1::2]))
    below, offenders, todo = children(rows), [], [(len(rows) - 1, ())]
    while todo:
        number, around = todo.pop()
        kind, value = rows[number][0] % 256, rows[number][1]
        if kind in JUMPS and not leads(kind, value, around):
            offenders.append(number)
        todo += [(child, round_child(kind, value, child == below[number][-1], around)) for child in below[number]]
    if not offenders:
        return Verdict(0, 0)
    return Verdict(WITH_LABEL if rows[min(offenders)][1] else WITHOUT_LABEL, min(offenders))
