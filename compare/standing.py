"""Long trees for compare/writer: small ones with so many trees standing before, in and behind them that the words of the writer's decision are full.

In the order of the records a tree stands while it is finished and its parent has not come yet. crates/writer/src/standing.rt keeps a word for each.
"""
from canonical import NODE
from room import ROOM
from trees import (LABELLED, MEMBER, SINGLE, UNNAMED, a_list, a_name, as_operand, assign, begin_end, block, body, field, function, group, index_pattern, item,
                   name_pattern, node, primary)

NAME = a_name(0)
# What stands in rows beside the small tree, by the row's sort; mostly of few records.
OPERANDS = [NAME] * 40 + [
    UNNAMED, LABELLED, group(SINGLE), begin_end([]), group(assign(MEMBER, UNNAMED, 1), 2), primary(NAME, node("Index", assign(MEMBER, UNNAMED, 2)))]
STATED = [node("Expression", NAME)] * 40 + [
    node("Loop", body([]), value=1), node("Expression", assign(MEMBER, UNNAMED, 2)), node("Expression", UNNAMED),
    node("Expression", assign(name_pattern(0), LABELLED))]
PATTERNS = [name_pattern(0)] * 40 + [
    MEMBER, index_pattern(0, NAME), index_pattern(0, assign(MEMBER, UNNAMED, 2)), node("TuplePattern", a_list(MEMBER, name_pattern(1)))]
ITEMS = [node("Attribute", value=1)] * 40 + [node("Index", NAME), node("Index", assign(MEMBER, UNNAMED, 2))]
FIELDS = [item(field(1), NAME)] * 10 + [item(field(1), UNNAMED), item(node("FieldIndex", NAME), LABELLED)]
BRANCHES = [node("ConditionalBranch", NAME, block([]))] * 10 + [node("ConditionalBranch", LABELLED, block([], UNNAMED))]
PARAMETERS = [node("ParamDef", value=2)]
# What nests, with the number of trees that stand before what is nested in it.
NESTS = [
    (1, lambda e: assign(name_pattern(1), e)),
    (1, lambda e: group(node("BinaryOp", NAME, e, value=3))),
    (2, lambda e: primary(NAME, node("Invoke", a_list(NAME, e)))),
    (3, lambda e: assign(MEMBER, function(0, block([], e)), 2)),
]


def around(rng, number):
    """a few less than the number, so that it is reached in a small tree, to a few more"""
    return number + rng.randrange(-30, 4)


class Standing:
    """Statements with small trees in rows of others, drawn from some statements, of which some can be written."""

    def __init__(self, rng, statements, written):
        self.rng = rng
        self.statements = statements
        self.written = written

    def small(self):
        """a statement's expression, or a block with what is no expression statement"""
        kind, value, kids = self.rng.choice(self.statements)
        return kids[0] if kind == NODE["Expression"] and kids else begin_end([(kind, value, kids)])

    def operand(self):
        return as_operand(self.rng.choice(self.written))

    def numbers(self):
        """how many trees stand before and behind"""
        once, again, twice = around(self.rng, ROOM), around(self.rng, ROOM), around(self.rng, 2 * ROOM)
        many = self.rng.choice((once, once, ROOM + self.rng.randrange(ROOM), twice, 2 * ROOM + self.rng.randrange(ROOM // 8)))
        few = self.rng.choice((0, 0, 1, 5))
        return self.rng.choice(((many, 0), (many, few), (few, many), (once, again)))

    def row(self, sort, *middle):
        before, behind = self.numbers()
        kinds = self.rng.choice((sort, sort, sort[:1]))
        return [*self.rng.choices(kinds, k=before), *middle, *self.rng.choices(kinds, k=behind)]

    # a statement with e in a row of others

    def argument(self, e):
        return node("Expression", primary(NAME, node("Invoke", a_list(*self.row(OPERANDS, e)))))

    def two_arguments(self, e):
        return node("Expression", primary(NAME, node("Invoke", a_list(*self.row(OPERANDS, e, self.operand()), self.operand()))))

    def member(self, e):
        return node("Expression", node("Tuple", a_list(*self.row(OPERANDS, e))))

    def leading(self, e):
        """e or a label at the beginning of a tuple, that at the beginning of a statement, a result or what a break gives"""
        first = self.rng.choice((e, LABELLED, node("BinaryOp", LABELLED, NAME, value=3), begin_end([], NAME)))
        made = node("Tuple", a_list(first, *self.row(OPERANDS)))
        return self.rng.choice((
            node("Expression", made), node("Expression", begin_end([], made)), node("Expression", group(made)),
            node("Loop", body([], node("Break", made, value=self.rng.randrange(2))))))

    def in_loop(self, e):
        return node("Loop", body(self.row(STATED, node("Expression", e))), value=self.rng.randrange(2))

    def leaving_loop(self, e):
        return node("Loop", body(self.row(STATED), node("Break", e, value=self.rng.randrange(2))))

    def pattern(self, e):
        return node("Expression", assign(node("TuplePattern", a_list(*self.row(PATTERNS, index_pattern(1, e)))), self.operand()))

    def field(self, e):
        return node("Expression", node("Table", a_list(*self.row(FIELDS, item(self.rng.choice((field(1), node("FieldIndex", self.operand()))), e)))))

    def branch(self, e):
        return node("Expression", node("IfExpr", a_list(*self.row(BRANCHES, node("ConditionalBranch", e, block([], self.operand())))), block([], e)))

    def default(self, e):
        return node("Expression", self.targeted(name_pattern(1), function(2, block([]), self.row(PARAMETERS), [node("DefaultDef", e, value=1)])))

    def path(self, e):
        """e in a target's path of many items"""
        receiver = primary(NAME, *self.row(ITEMS, node("Index", e)))
        return node("Expression", self.targeted(node("AttributePattern", receiver, value=1), function(0, block([], self.operand()))))

    def index(self, e):
        """e in a target, behind or before an index with a tuple of many members"""
        indexes = [node("Index", e), node("Index", node("Tuple", a_list(*self.row(OPERANDS, self.operand()))))]
        self.rng.shuffle(indexes)
        return node("Expression", self.targeted(node("IndexPattern", primary(NAME, *indexes), self.operand()), function(0, block([], e))))

    def suite(self, e):
        """e in a target, the row in the function's body"""
        suite = block(self.row(STATED, node("Expression", self.operand())), e)
        return node("Expression", self.targeted(node("IndexPattern", primary(NAME, node("Index", e)), self.operand()), function(0, suite)))

    def nested(self, e):
        """e with many trees standing before it, a few of them in each level"""
        number, level = self.rng.choice(NESTS)
        for _ in range(max(self.numbers()) // number):
            e = level(e)
        return node("Expression", e)

    def in_two(self, e):
        """one row in another"""
        rows = self.rng.sample((self.argument, self.member, self.in_loop, self.pattern, self.suite, self.path), 2)
        return rows[1](as_operand(rows[0](e)))

    def targeted(self, target, made):
        """a function with a target; sometimes with a modifier before both"""
        if self.rng.random() < 0.3:
            return group(assign(target, made, 1), 2)
        return assign(target, made, 2)


ROWS = [Standing.argument, Standing.two_arguments, Standing.member, Standing.leading, Standing.in_loop, Standing.leaving_loop, Standing.pattern, Standing.field,
        Standing.branch, Standing.default, Standing.path, Standing.index, Standing.suite, Standing.nested, Standing.in_two]
