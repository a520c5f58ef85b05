"""Statements with breaks and continues, for the check of labels: what encloses one, many levels deep, and many of them in one place. bench/labels runs them,
bench/passed counts what the check looks at in them.

shapes.py says what a record and a tree are. A body is the records of a `StmtList`; a label is 0 or 1 + a name. What encloses a body is a statement, and its
labels are given from the innermost one on.
"""
from gaps import worst
from shapes import A, DEPTH, GROUPED, NO_STATEMENTS, SIGNATURE, STATED, count, minus, rec
from room import ENTRIES  # in tools, where shapes looks too

# The label of what is outermost, one that nothing has, and the first of those between.
OUTER, NOWHERE, INNER = 1, 2, 3
ABSENT, EXPR_BLOCK = rec("Absent"), rec("ExprBlock", 2)
# What makes a body of one statement.
ALONE = rec("List", 1) + ABSENT + rec("StmtList", 2)


def broken(label=0):
    """`break @label`"""
    return ABSENT + rec("Break", 1, label)


def continued(label=0):
    return rec("Continue", 0, label)


def body(jump):
    """a body of nothing but a break or continue"""
    return rec("List") + jump + rec("StmtList", 2)


def offender(tree, jump):
    """the number of the first such break or continue's record"""
    return tree.index(jump + rec("StmtList", 2)) // 16 + count(jump) - 1


def damaged(tree):
    """a record in the middle has a kind that there is not, with as many children"""
    middle = count(tree) // 2 * 16
    return tree[:middle] + b"\xff" + tree[middle + 1:]


def distinct(number, outer=OUTER):
    return [*range(INNER, INNER + number - 1), outer]


def loops(inner, labels):
    return inner + ALONE.join(rec("Loop", 1, label) for label in labels)


def blocks(inner, labels):
    """`(@l begin .. end)`, each the result of the next; in parentheses, since no statement or result begins with a label"""
    return (NO_STATEMENTS * (len(labels) - 1) + inner + ABSENT
            + b"".join(EXPR_BLOCK + rec("Block", 1, label) + GROUPED for label in labels) + STATED)


def branch(inner):
    """`if a then .. end`, an expression"""
    return A + inner + ABSENT + EXPR_BLOCK + rec("ConditionalBranch", 2) + rec("List", 1) + ABSENT + rec("IfExpr", 2)


def signs(inner, number):
    """minus before a branch"""
    return minus(number, branch(inner)) + STATED


def unnamed(inner, number):
    """`fun() .. end`, each the result of the next"""
    return (SIGNATURE + NO_STATEMENTS) * (number - 1) + SIGNATURE + inner + ABSENT + (EXPR_BLOCK + rec("FunctionDef", 2)) * number + STATED


def looped(statement, label):
    return statement + ALONE + rec("Loop", 1, label)


def before_loops(jump, number):
    """a branch with a break or continue before so many loops, in a loop that has the outermost label"""
    return loops(branch(body(jump)) + STATED + loops(NO_STATEMENTS, distinct(number, INNER)) + rec("List", 2) + ABSENT + rec("StmtList", 2), [OUTER])


def begun(statement):
    """`begin .. end` as a statement"""
    return statement + ALONE + ABSENT + EXPR_BLOCK + rec("Block", 1) + STATED


# `if a then break end`, a statement, and its tokens with the semicolon.
BREAKING, BREAKING_TOKENS = branch(body(broken())) + STATED, 6
# `loop continue @x end`, the fewest records that a break or continue stands in, and its tokens with the semicolon.
CONTINUING, CONTINUING_TOKENS = body(continued(OUTER)) + rec("Loop", 1), 5


def suite(statement, number):
    """a body of so many times a statement"""
    return statement * number + rec("List", number) + ABSENT + rec("StmtList", 2)


# So many loops that the check has no entry for each, so that it looks at the records behind a break or continue; and so many that the entries, one of
# them for the loop that it stands in, are just not full.
MORE_LOOPS, FEWER_LOOPS = ENTRIES + 1, ENTRIES - 2


def room_for(n, deep):
    """how often CONTINUING stands in n records within so many loops"""
    return n // count(CONTINUING) - deep


def within(n, deep):
    """n records: as often as there is room CONTINUING, within so many loops with distinct labels, of which the outermost serves them"""
    return loops(suite(CONTINUING, room_for(n, deep)), distinct(deep))


def each_ended(n):
    """n records: loops with distinct labels, each with the next one and then `continue @x` in it, all of them served by the outermost"""
    between = rec("List", 1) + continued(OUTER) + rec("StmtList", 2)
    return body(continued(OUTER)) + between.join(rec("Loop", 1, label) for label in distinct(n // count(CONTINUING)))


def given_up(n):
    """about n records: a loop over nested loops, more of them than there are entries, so that all entries are given up again and again"""
    nested = loops(NO_STATEMENTS, [0] * MORE_LOOPS)
    return loops(suite(nested, max(1, n // count(nested))), [0])


def behind(n, deep):
    """how many records stand behind one, for all breaks and continues of within(n, deep) together; and of each_ended(n), but for those in less than deep + 1 loops"""
    number = room_for(n, deep)
    return number * (n - 2) - count(CONTINUING) * number * (number - 1) // 2


def compared(n, deep):
    """how many entries stand for what encloses one, for all breaks and continues of within(n, deep) together"""
    return room_for(n, deep) * (deep + 1)


# What a reading gives at most around a break or continue: loops, each of one depth; loops and blocks in turn, of three depths together.
READ_LOOPS, READ_PAIRS = DEPTH - 1, (DEPTH - 1) // 3


def deepest(number):
    """so many times CONTINUING, in as many loops as a reading gives"""
    return loops(suite(CONTINUING, number), [0] * (READ_LOOPS - 1) + [OUTER])


def in_turn(number):
    """the same, in loops and blocks in turn"""
    statement = begun(loops(suite(CONTINUING, number), [0]))
    for label in [0] * (READ_PAIRS - 2) + [OUTER]:
        statement = begun(looped(statement, label))
    return statement


# Each shape's name, and the statement by the number of its records.
JUMP_SHAPES = (
    ("`loop continue @x end` in {:,} loops".format(MORE_LOOPS), lambda n: within(n, MORE_LOOPS)),
    ("nested `loop .. continue @x end`", each_ended),
    ("`loop continue @x end` in {:,} loops".format(FEWER_LOOPS), lambda n: within(n, FEWER_LOOPS)),
    ("a loop over {:,} nested loops".format(MORE_LOOPS), given_up),
    ("the worst shape for the decision", worst),
)
# Trees that a reading within the limits gives, at most 65,536 tokens.
READ_JUMPS = (
    ("`loop continue @x end` in %d loops, 13,000 times" % READ_LOOPS, deepest(13000)),
    ("`loop continue @x end` in %d loops and blocks in turn, 13,000 times" % (2 * READ_PAIRS), in_turn(13000)),
    ("`loop if a then break end .. end`, 10,900 times", loops(suite(BREAKING, 10900), [0])),
)
