"""Trees for compare/writer and compare/labels: their records, changed and altered ones, the parts that others are made of, and ones wrapped in more levels.

functions.py, statements.py, standing.py and jumps.py make others. A tree is (kind, value, [trees]) as in tools/canonical.py; a record is (first word, value), and
a tree's records are those of docs/TREE.md.
"""
import functools
from canonical import NODE, NODES
from limit import DEPTH

VALUES = [0, 1, 2, 3, 4, 5, 8, 14, 17, 18, 40, 43, 44, 2**32 - 1, 2**32, 2**32 + 1, 2**33 - 1, 2**33, 2**33 + 1, 2**63, 2**64 - 1]
ACTIONS = 4
ASSIGNMENTS = 44  # operators and actions of an assignment
MOST_LEVELS = DEPTH + 6


def node(name, *kids, value=0):
    return (NODE[name], value, list(kids))


def records(tree):
    """a tree's records, every node after its children"""
    found, todo = [], [tree]
    while todo:
        kind, value, kids = todo.pop()
        found.append((kind + 256 * len(kids), value))
        todo += kids
    found.reverse()
    return found


def words(rows):
    return [word for row in rows for word in row]


# altering: each takes the records, which it changes, and those of another tree

def subtree(rows, last):
    """the slice of the tree whose root is the record `last`; shorter where the counts don't add up"""
    left, at = 1, last
    while left and at >= 0:
        left += rows[at][0] // 256 - 1
        at -= 1
    return slice(at + 1, last + 1)


def change_kind(rng, rows, other):
    at = rng.randrange(len(rows))
    word, value = rows[at]
    kind = rng.choice((rng.randrange(len(NODES)), rng.randrange(len(NODES)), (word + rng.choice((-1, 1))) % 256, rng.randrange(256)))
    rows[at] = (word // 256 * 256 + kind, value)


def change_value(rng, rows, other):
    at = rng.randrange(len(rows))
    word, value = rows[at]
    rows[at] = (word, rng.choice((rng.choice(VALUES), rng.randrange(20), (value + rng.choice((-1, 1))) % 2**64, rng.getrandbits(64))))


def change_count(rng, rows, other):
    at = rng.randrange(len(rows))
    word, value = rows[at]
    count = rng.choice((word // 256 + 1, abs(word // 256 - 1), rng.randrange(5), rng.randrange(2**56)))
    rows[at] = (count * 256 + word % 256, value)


def drop_record(rng, rows, other):
    del rows[rng.randrange(len(rows))]


def double_record(rng, rows, other):
    at = rng.randrange(len(rows))
    rows.insert(rng.choice((at, rng.randrange(len(rows) + 1))), rows[at])


def take_record(rng, rows, other):
    rows[rng.randrange(len(rows))] = rng.choice(other)


def take_value(rng, rows, other):
    """the value of a record with the same kind"""
    at = rng.randrange(len(rows))
    like = [value for word, value in other if word % 256 == rows[at][0] % 256]
    if like:
        rows[at] = (rows[at][0], rng.choice(like))


def take_subtree(rng, rows, other):
    at, source = rng.randrange(len(rows)), rng.randrange(len(other))
    rows[subtree(rows, at)] = other[subtree(other, source)]


def take_like_subtree(rng, rows, other):
    """a subtree in the place of one with the same kind at its root"""
    at = rng.randrange(len(rows))
    like = [place for place, row in enumerate(other) if row[0] % 256 == rows[at][0] % 256]
    if like:
        rows[subtree(rows, at)] = other[subtree(other, rng.choice(like))]


ALTERATIONS = [change_kind, change_value, change_value, change_count, drop_record, double_record, take_record, take_value, take_value,
               take_subtree, take_subtree, take_like_subtree, take_like_subtree, take_like_subtree]


def altered(rng, rows, other):
    """a tree's words after one to three alterations; now and then a word is missing at an end, so that their number is odd"""
    rows = list(rows)
    for _ in range(rng.choice((1, 1, 2, 3))):
        if rows:
            rng.choice(ALTERATIONS)(rng, rows, other)
    found = words(rows)
    if found and rng.random() < 0.02:
        del found[rng.choice((0, -1))]
    return found


# parts of trees; e is an expression that may stand as an operand, n a name's number

def a_list(*kids):
    return node("List", *kids)


def a_name(n):
    return node("Identifier", value=n)


def primary(atom, *items):
    return node("Primary", atom, a_list(*items))


def group(e, value=0):
    return node("Group", e, value=value)


def body(statements, control=None):
    return node("StmtList", a_list(*statements), control or node("Absent"))


def block(statements, result=None, control=None):
    return node("ExprBlock", body(statements, control), result or node("Absent"))


def begin_end(*args, **named):
    return node("Block", block(*args, **named))


def function(name, suite, required=(), default=(), variadic=None):
    signature = node("SignatureDef", a_list(*required), a_list(*default), variadic or node("Absent"), value=name)
    return node("FunctionDef", signature, suite)


def assign(pattern, e, value=0):
    return node("Assignment", pattern, e, value=value)


def index_pattern(n, e):
    return node("IndexPattern", primary(a_name(n)), e)


def item(field, e):
    return node("TableItem", field, e)


def field(n):
    return node("FieldAttribute", value=n)


def if_then(condition, suite, otherwise=None):
    return node("IfExpr", a_list(node("ConditionalBranch", condition, suite)), otherwise or node("Absent"))


def name_pattern(n):
    return node("IdentifierPattern", value=n)


# What gives an operand one or two levels deeper than the operand e. All are of trees that can be read, wherever e can stand as an operand.
LEVELS = [
    lambda e, n: group(e),
    lambda e, n: group(e, 1 + n % ACTIONS),
    lambda e, n: node("UnaryOp", e, value=n % 4),
    lambda e, n: group(node("BinaryOp", a_name(n), e, value=n % 18)),
    lambda e, n: group(node("BinaryOp", e, a_name(n), value=n % 18)),
    lambda e, n: group(node("Tuple", a_list(e))),
    lambda e, n: group(node("Tuple", a_list(a_name(n), e))),
    lambda e, n: group(node("Unpack", group(e))),
    lambda e, n: primary(a_name(n), node("Index", e)),
    lambda e, n: primary(a_name(n), node("Invoke", a_list(e))),
    lambda e, n: primary(a_name(n), node("Invoke", a_list(a_name(n), e, a_name(n)))),
    lambda e, n: primary(a_name(n), node("InvokeTable", a_list(item(field(n), e)))),
    lambda e, n: node("Table", a_list(item(field(n), e), item(field(n + 1), a_name(n)))),
    lambda e, n: node("Table", a_list(item(node("FieldIndex", e), a_name(n)))),
    lambda e, n: group(assign(name_pattern(n), e)),
    lambda e, n: group(assign(index_pattern(n, e), a_name(n), 4 * (n % 11))),
    lambda e, n: group(assign(name_pattern(n), e, n % ACTIONS), 1 + n % ACTIONS),
    lambda e, n: group(assign(node("TuplePattern", a_list(node("Pack", index_pattern(n, e)), name_pattern(n))), a_name(n))),
    lambda e, n: group(assign(node("Modifier", node("Pack", node("Pack", index_pattern(n, e))), value=n % ACTIONS), a_name(n))),
    lambda e, n: begin_end([], e),
    lambda e, n: begin_end([node("Assert", e)]),
    lambda e, n: begin_end([node("WhileLoop", e, body([]), value=n)]),
    lambda e, n: begin_end([node("Loop", body([node("Expression", e)]))]),
    lambda e, n: begin_end([node("ForLoop", index_pattern(n, e), a_name(n), body([]))]),
    lambda e, n: begin_end([node("Expression", e)], control=node("Continue", value=n)),
    lambda e, n: begin_end([], control=node("Break", e, value=1 + n)),
    lambda e, n: begin_end([], control=node("Return", e)),
    lambda e, n: group(node("Block", block([], e), value=1 + n)),
    lambda e, n: if_then(e, block([])),
    lambda e, n: if_then(a_name(n), block([], e), block([], a_name(n))),
    lambda e, n: if_then(a_name(n), block([]), block([], e)),
    lambda e, n: function(0, block([], e), required=[node("ParamDef", value=n)]),
    lambda e, n: function(0, block([]), default=[node("DefaultDef", e, value=n)]),
    lambda e, n: assign(name_pattern(n), function(1 + n, block([], e), variadic=node("ParamDef", value=n)), 2),
    lambda e, n: assign(index_pattern(n, e), function(0, block([])), 2),
    lambda e, n: assign(node("AttributePattern", primary(a_name(n), node("Index", e)), value=n), function(0, block([])), 2),
]


def stated(level):
    return lambda e, n: node("Expression", level(e, n))


# What gives a statement with e in some place, whether e may stand there or not.
PLACES = [
    lambda e, n: node("Expression", e),
    lambda e, n: node("Assert", e),
    lambda e, n: node("Loop", body([node("Expression", e)]), value=n),
    lambda e, n: node("Loop", body([], node("Break", e, value=n % 3))),
    lambda e, n: node("WhileLoop", e, body([]), value=n),
    lambda e, n: node("ForLoop", name_pattern(n), e, body([]), value=n),
    lambda e, n: node("Expression", node("BinaryOp", e, a_name(n), value=n % 18)),
    lambda e, n: node("Expression", node("BinaryOp", a_name(n), e, value=n % 18)),
    lambda e, n: node("Expression", node("Tuple", a_list(e))),
    lambda e, n: node("Expression", node("Tuple", a_list(a_name(n), e))),
    lambda e, n: node("Expression", node("Tuple", a_list(e, a_name(n)))),
    lambda e, n: node("Expression", node("Unpack", e)),
    lambda e, n: node("Expression", primary(e, node("Attribute", value=n))),
    lambda e, n: node("Expression", assign(name_pattern(n), e, n % ASSIGNMENTS)),
    lambda e, n: e,
    *map(stated, LEVELS),
]


# What is put in the place of any tree: things that stand in some places only, or are written in some other way.
NAMED = function(1, block([]))
UNNAMED = function(0, block([]))
MEMBER = node("AttributePattern", primary(a_name(0)), value=1)
A_DEFAULT = node("DefaultDef", a_name(1), value=2)
LABELLED = node("Block", block([], a_name(0)), value=1)
SINGLE = node("Tuple", a_list(a_name(0)))
PARTS = [
    node("Absent"), a_list(), a_list(a_name(0)), a_list(a_name(0), a_name(1)), a_list(node("Expression", a_name(0))), a_list(name_pattern(0)),
    a_name(0), node("EmptyTuple"), node("IntegerLiteral", value=2**64 - 1), node("FloatLiteral", value=2**63), primary(a_name(0)),
    primary(a_name(0), node("Attribute", value=1)), primary(a_name(0), node("Invoke", a_list())), primary(NAMED, node("Attribute", value=1)),
    group(a_name(0)), group(a_name(0), 1), group(SINGLE), node("UnaryOp", a_name(0)), node("UnaryOp", LABELLED, value=3),
    *[node("BinaryOp", a_name(0), a_name(1), value=op) for op in range(18)], node("BinaryOp", LABELLED, a_name(0)), node("BinaryOp", a_name(0), LABELLED),
    node("Unpack", node("Absent")), node("Unpack", a_name(0)), node("Unpack", LABELLED), SINGLE, node("Tuple", a_list()), node("Tuple", a_list(LABELLED, a_name(0))),
    node("Table", a_list()), node("Table", a_list(item(field(1), SINGLE))), if_then(a_name(0), block([])), node("IfExpr", a_list(), node("Absent")),
    LABELLED, begin_end([]), begin_end([node("Expression", a_name(0))]), begin_end([], a_name(0), node("Continue")), begin_end([], node("Unpack", node("Absent"))),
    NAMED, UNNAMED, function(0, block([]), default=[A_DEFAULT, A_DEFAULT]), function(0, block([]), default=[A_DEFAULT], variadic=node("ParamDef")),
    *[assign(name_pattern(0), a_name(1), value) for value in range(8)], assign(name_pattern(0), SINGLE), assign(name_pattern(0), LABELLED),
    *[assign(name_pattern(0), NAMED, value) for value in range(8)], *[assign(MEMBER, UNNAMED, value) for value in range(8)],
    *[group(assign(name_pattern(0), NAMED, value), 1 + value % 4) for value in range(8)],
    *[group(assign(MEMBER, UNNAMED, value), 1 + value % 4) for value in range(8)], group(assign(MEMBER, UNNAMED, 2), 1),
    name_pattern(0), MEMBER, index_pattern(0, SINGLE), node("Pack", node("Absent")), node("Pack", node("Pack", name_pattern(0))), node("TuplePattern", a_list()),
    node("TuplePattern", a_list(name_pattern(0))), node("Modifier", name_pattern(0), value=1), node("Index", SINGLE), node("Invoke", a_list(SINGLE)),
    node("Invoke", a_list(assign(name_pattern(0), SINGLE, 1))), node("InvokeTable", a_list()), node("FieldIndex", a_name(0)), field(1), A_DEFAULT,
    node("ParamDef", value=1), node("Expression", a_name(0)), node("Expression", node("Unpack", node("Absent"))), node("Loop", body([])), node("Assert", SINGLE),
    node("Continue"), node("Break", LABELLED), node("Break", LABELLED, value=1), node("Return", SINGLE), body([]), block([]), block([], a_name(0)),
]


def changes(rows, at):
    """the records with one of them changed: its value, its kind, its count, or the tree that ends there"""
    word, value = rows[at]
    records_here = [(word, other % 2**64) for other in VALUES + [value - 1, value + 1]]
    records_here += [(word // 256 * 256 + kind, value) for kind in range(len(NODES) + 1)]
    records_here += [(word % 256 + 256 * count, value) for count in range(5)]
    for record in records_here:
        yield rows[:at] + [record] + rows[at + 1:]
    place = subtree(rows, at)
    for part in PARTS:
        yield rows[:place.start] + records(part) + rows[place.stop:]


def as_operand(statement):
    """a statement in a block, where it is the result if it can be"""
    if statement[0] == NODE["Expression"]:
        return begin_end([], statement[2][0])
    return begin_end([statement])


def tower(rng, statement):
    """gives for a number, at most MOST_LEVELS, the statement wrapped in as many levels, of a few sorts"""
    sorts = rng.sample(LEVELS, rng.randrange(1, 6))
    chosen = [functools.partial(rng.choice(sorts), n=rng.randrange(12)) for _ in range(MOST_LEVELS)]

    def wrapped(count):
        e = as_operand(statement)
        for level in chosen[:count]:
            e = level(e)
        return node("Expression", e)

    return wrapped


class Drawn:
    """What draws trees at random. The chance `odd` is that of a thing which does not stand where it is put."""

    def __init__(self, rng, odd):
        self.rng = rng
        self.odd = odd

    def rarely(self):
        return self.rng.random() < self.odd

    def number(self):
        return self.rng.randrange(6)

    def placed(self, e):
        """a statement with e in some place"""
        return self.rng.choice(PLACES)(e, self.rng.randrange(ASSIGNMENTS))
