"""Statements for which the writer seeks in the records what it does not keep. bench/passed counts what it passes over in them, bench/write times them.

Most are nests: levels around a core. A level has a gap: records that stand behind what is nested in it. A gap that is a sum has few trees that stand at a
time; a wide one has so many that the decision for 65, with no words but its own, forgets what stands before it.
"""
from shapes import (A, ADDED, DEPTH, ENDED, GROUPED, NAMED_SIGNATURE, NO_RESULT, NO_STATEMENTS, PATTERN, SIGNATURE, STATED, assigned, big, call, chain,
                    count, functions, integers, loop, nest, rec, right_nested, table, tupled)
from room import ROOM  # in tools, where shapes looks too

# The gaps: a sum, of any length; a call and, with the fewest records, a tuple, as wide as the decision's own words.
SUM, CALL, TUPLE = big(24576), call(integers(ROOM)), tupled(integers(ROOM))
# How many times `a =` an argument of long_arguments has.
TIMES = 1030
# A target's last index and the function's signature: `].b()`.
TARGET = rec("Index", 1) + rec("List", 1) + rec("Primary", 2) + rec("AttributePattern", 1, 1) + SIGNATURE
CALLED = rec("List", 1) + rec("Invoke", 1) + rec("List", 1) + rec("Primary", 2)


def sums(core, levels, gap):
    """.. + gap"""
    return nest(core, levels, b"", gap + ADDED)


def bodies(core, levels, gap):
    """fun f() .. end + gap"""
    return nest(core, levels, PATTERN + NAMED_SIGNATURE + NO_STATEMENTS, ENDED + gap + ADDED)


def targets(core, levels, gap=b""):
    """fun a[..].b() end + gap"""
    return nest(core, levels, A, TARGET + NO_RESULT + ENDED + (gap and gap + ADDED))


def arguments(core, levels, gap):
    """a(fun a[..].b() gap end)"""
    return nest(core, levels, A + A, TARGET + NO_STATEMENTS + gap + ENDED + CALLED)


def members(core, levels, gap):
    """1, fun() .. end, gap"""
    return nest(core, levels, rec("IntegerLiteral") + SIGNATURE + NO_STATEMENTS,
                rec("ExprBlock", 2) + rec("FunctionDef", 2) + gap + rec("List", 3) + rec("Tuple", 1))


def indexes(core, levels, gap):
    """a[..][gap] = a"""
    return nest(core, levels, A, rec("Index", 1) + rec("List", 1) + rec("Primary", 2) + gap + rec("IndexPattern", 2) + A + rec("Assignment", 2))


def plain(level, gap):
    """levels with gaps, by the number of all records"""
    return lambda n: level(A, max(1, round(n / count(level(b"", 1, gap)))), gap) + STATED


def filled(around, n):
    """what stands around a core, with a sum as its core, n records"""
    return around(chain((n - count(around(b"")) + 1) // 2))


def in_targets(core, deep=DEPTH):
    """functions in targets around a core; a statement"""
    return targets(core, deep) + STATED


def deep_targets(n):
    return in_targets(A, n // count(targets(b"", 1)))


def long_arguments(n):
    """arguments that are `(a = a = ..)`"""
    argument = assigned(TIMES) + GROUPED
    return call([argument] * (n // count(argument))) + STATED


def empty_loops(n):
    """the most lists of statements"""
    inner = loop([])
    return loop([inner] * (n // count(inner)))


worst = plain(sums, TUPLE)


def variadic(n):
    """the worst shape, where a signature has its variadic parameter: no reading gives that"""
    parameter = worst(n)[:-len(STATED)]
    return rec("List") * 2 + parameter + rec("SignatureDef", 3) + NO_RESULT + rec("ExprBlock", 2) + rec("FunctionDef", 2) + STATED


def stated_functions(levels, statements):
    """.. + fun() a a .. end"""
    suite = (A + STATED) * statements + rec("List", statements) + rec("Absent") + rec("StmtList", 2)
    return nest(A, levels, b"", SIGNATURE + suite + A + rec("ExprBlock", 2) + rec("FunctionDef", 2) + ADDED) + STATED


# Trees that a reading within the limits gives, at most 65,536 tokens, and that make the decision forget most often.
READ = (
    ("`loop a a .. end`, 65,000 statements", loop([A + STATED] * 65000)),
    ("`a + (0, 1, ..) + ..`, 5 tuples with {:,} members".format(ROOM), sums(A, 5, TUPLE) + STATED),
    ("`a + fun() a a .. end + ..`, 10 functions with {:,} statements".format(ROOM - 1), stated_functions(10, ROOM - 1)),
)
LEVELS = (sums, bodies, targets, arguments, members, indexes)
GAPS = (("a sum of {:,} records".format(count(SUM)), SUM), ("a call with {:,} arguments".format(ROOM), CALL))
# Each shape's name, and the statement by the number of its records.
SHAPES = (
    ("a sum", lambda n: chain(n // 2) + STATED),
    ("a call", lambda n: call(integers(n)) + STATED),
    ("a table", lambda n: table(2 * n // 7) + STATED),
    *(("`%s`, the gap %s" % (level.__doc__, name), plain(level, gap)) for name, gap in GAPS for level in LEVELS),
    ("`.. + gap`, the gap a tuple with {:,} members".format(ROOM), worst),
    ("the same as a variadic parameter", variadic),
    ("%d functions in targets, most records in the innermost" % DEPTH, lambda n: filled(in_targets, n)),
    ("functions in targets, as deep as the records allow", deep_targets),
    ("a call with arguments that are {:,} times `a =`, in parentheses".format(TIMES), long_arguments),
    ("`(a + (a + ..`", lambda n: right_nested(n // 3) + STATED),
    ("nested `fun f() .. end`", lambda n: functions(n // 11) + STATED),
    ("a loop over loops without statements", empty_loops),
)
