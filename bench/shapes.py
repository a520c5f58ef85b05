"""Statements as records: hostile ones, and plain ones of any length. bench/write runs them; gaps.py has more.

A record is 16 bytes, a tree the bytes of its records, and every function gives the records of an expression if it says nothing else. docs/TREE.md
says what a record holds.
"""
import os
import struct
import sys

ROOT = os.path.dirname(os.path.dirname(os.path.abspath(__file__)))
sys.path += [os.path.join(ROOT, "tools"), os.path.join(ROOT, "compare", "oracle")]
from canonical import NODE
from limit import DEPTH

ADD, LET = 3, 2
# One operator of each of the ten levels, the tightest first.
LEVELS = (0, 3, 5, 7, 8, 9, 10, 14, 16, 17)


def rec(kind, kids=0, value=0):
    return struct.pack("<QQ", NODE[kind] + 256 * kids, value)


def count(tree):
    return len(tree) // 16


A = rec("Identifier", 0, 7)
ADDED = rec("BinaryOp", 2, ADD)
GROUPED = rec("Group", 1)
# What makes a statement of an expression.
STATED = rec("Expression", 1)
PATTERN = rec("IdentifierPattern", 0, 1)
# `()` of a function without a name, and of one with the name of PATTERN.
SIGNATURE = rec("List") + rec("List") + rec("Absent") + rec("SignatureDef", 3)
NAMED_SIGNATURE = rec("List") + rec("List") + rec("Absent") + rec("SignatureDef", 3, 2)
# What stands in a body before its result; the same and no result.
NO_STATEMENTS = rec("List") + rec("Absent") + rec("StmtList", 2)
NO_RESULT = NO_STATEMENTS + rec("Absent")
# What `fun` with a target has behind the result.
ENDED = rec("ExprBlock", 2) + rec("FunctionDef", 2) + rec("Assignment", 2, LET)


def chain(terms):
    """a sum of names"""
    return A + (A + ADDED) * (terms - 1)


def big(n):
    """a sum in parentheses, of n records"""
    return chain(n // 2) + GROUPED


def minus(times, operand=A):
    return operand + rec("UnaryOp", 1) * times


def damaged_minus(times):
    """one in the middle with an operator that there is not"""
    return minus(times // 2) + rec("UnaryOp", 1, 4) + rec("UnaryOp", 1) * (times - times // 2 - 1)


def right_nested(deep, leaf=A):
    """`(a + (a + ..`"""
    return A * deep + leaf + (ADDED + GROUPED) * deep


def assigned(times, value=A):
    """`a = a = ..`"""
    return PATTERN * times + value + rec("Assignment", 2) * times


# So many nested functions are written: each takes two of the depth, and what stands in the innermost one.
FUNCTIONS = (DEPTH - 1) // 2


def functions(deep):
    """`fun f() fun f() .. end end`"""
    return (PATTERN + NAMED_SIGNATURE + NO_STATEMENTS) * deep + rec("Nil") + ENDED * deep


def call(arguments):
    return A + b"".join(arguments) + rec("List", len(arguments)) + rec("Invoke", 1) + rec("List", 1) + rec("Primary", 2)


def tupled(members):
    """`(.., ..)`"""
    return b"".join(members) + rec("List", len(members)) + rec("Tuple", 1) + GROUPED


def integers(n):
    return [rec("IntegerLiteral", 0, i) for i in range(n)]


def table(items):
    """`{ f = 0, [a] = 1, .. }`"""
    fields = (rec("FieldAttribute", 0, 2), A + rec("FieldIndex", 1))
    rows = [fields[i % 2] + number + rec("TableItem", 2) for i, number in enumerate(integers(items))]
    return b"".join(rows) + rec("List", items) + rec("Table", 1)


def loop(statements):
    """a statement"""
    return b"".join(statements) + rec("List", len(statements)) + rec("Absent") + rec("StmtList", 2) + rec("Loop", 1)


def nest(core, levels, before, behind):
    """levels around a core: of each level what stands before what is nested in it, and what stands behind"""
    return before * levels + core + behind * levels


# Ten operators, each in the right side of the weaker one: before the innermost right side, and behind it.
LEFT_SIDES = A * len(LEVELS)
OPERATORS = b"".join(rec("BinaryOp", 2, number) for number in LEVELS)
# `a { .. }...`
UNPACKED = rec("InvokeTable", 1) + rec("List", 1) + rec("Primary", 2) + rec("Unpack", 1)


def deep_calls(deep):
    """ten operators around a call with the next ten as second argument"""
    return nest(A, deep, LEFT_SIDES + A + rec("Attribute", 0, 3) + A, rec("List", 2) + rec("Invoke", 1) + rec("List", 2) + rec("Primary", 2) + OPERATORS)


# An item with ten operators around `a[a]` as its value, and the list of it.
ONE_ITEM = (rec("FieldAttribute", 0, 2) + LEFT_SIDES + A + A + rec("Index", 1) + rec("List", 1) + rec("Primary", 2) + OPERATORS + rec("TableItem", 2)
            + rec("List", 1))


def deep_tables(deep, innermost=rec("List")):
    """a tuple with ten operators around an unpacked call with a table, whose second item's index is the next such tuple; the items of the innermost"""
    first = rec("FieldAttribute", 0, 2) + A + rec("TableItem", 2)
    pair = rec("List", 2) + rec("Tuple", 1)
    core = A + LEFT_SIDES + A + innermost + UNPACKED + OPERATORS + pair
    return nest(core, deep, A + LEFT_SIDES + A + first, rec("FieldIndex", 1) + A + rec("TableItem", 2) + rec("List", 2) + UNPACKED + OPERATORS + pair)
