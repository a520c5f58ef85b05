"""Trees by their places for compare/writer and, through jumps.py, for compare/labels: labels and tuples of one member down the edges of others, and trees
made by what each place takes."""
from canonical import NODE, NODES
from trees import (ACTIONS, ASSIGNMENTS, MEMBER, VALUES, Drawn, a_list, a_name, assign, begin_end, block, body, field, function, group, index_pattern, item,
                   name_pattern, node, primary)

# What has e at its beginning, where a label is the first token, or nearly there.
BEGINNINGS = [
    lambda e, n: node("BinaryOp", e, a_name(n), value=n % 18),
    lambda e, n: node("BinaryOp", a_name(n), e, value=n % 18),
    lambda e, n: node("BinaryOp", e, e, value=n % 18),
    lambda e, n: node("Tuple", a_list(e)),
    lambda e, n: node("Tuple", a_list(e, a_name(n))),
    lambda e, n: node("Tuple", a_list(a_name(n), e)),
    lambda e, n: group(e, n % 2),
    lambda e, n: node("Unpack", e),
    lambda e, n: node("UnaryOp", e, value=n % 4),
    lambda e, n: assign(name_pattern(n), e, n % ACTIONS),
    lambda e, n: primary(group(e), node("Attribute", value=n)),
    lambda e, n: begin_end([node("Expression", e)]),
    lambda e, n: begin_end([], e),
    lambda e, n: begin_end([], control=node("Break", e, value=n % 2)),
    lambda e, n: begin_end([node("Loop", body([], node("Break", e)), value=n)]),
    lambda e, n: node("Block", block([node("Expression", e)]), value=1 + n),
]
# The same of things that stand nowhere.
NO_BEGINNINGS = [
    lambda e, n: a_list(e),
    lambda e, n: node("Tuple", e),
    lambda e, n: node("Tuple", e, a_list(e)),
    lambda e, n: node("Tuple", a_list(a_list(e))),
    lambda e, n: node("BinaryOp", node("Tuple", a_list(e)), a_name(n), value=n % 18),
    lambda e, n: node("BinaryOp", e, value=n % 18),
    lambda e, n: primary(e, node("Attribute", value=n)),
    lambda e, n: node("Loop", body([node("Expression", e)]), value=n),
    lambda e, n: node("Tuple"),
]
# What has e at its end, or in a place beside it.
ENDS = [
    lambda e, n: assign(name_pattern(n), e),
    lambda e, n: assign(name_pattern(n), e, n % ASSIGNMENTS),
    lambda e, n: assign(index_pattern(n, a_name(n)), e, n % ACTIONS),
    lambda e, n: assign(index_pattern(n, e), a_name(n)),
    lambda e, n: group(e),
    lambda e, n: group(assign(name_pattern(n), e, n % ACTIONS), 1 + n % ACTIONS),
    lambda e, n: node("Tuple", a_list(e)),
    lambda e, n: node("Tuple", a_list(a_name(n), e)),
    lambda e, n: begin_end([], e),
    lambda e, n: node("BinaryOp", a_name(n), e, value=n % 18),
    lambda e, n: primary(a_name(n), node("Index", e)),
    lambda e, n: primary(a_name(n), node("Invoke", a_list(e))),
    lambda e, n: function(0, block([]), default=[node("DefaultDef", e, value=n)]),
]
PATTERNS = [name_pattern(0), MEMBER, index_pattern(1, a_name(2)), node("TuplePattern", a_list(name_pattern(0), MEMBER))]


class Labels(Drawn):
    """Labels down the edges, in every place."""

    def statement(self, depth):
        return self.placed(self.labelled(depth))

    def labelled(self, depth):
        if depth <= 0 or self.rng.random() < 0.2:
            return self.leader()
        beginnings = NO_BEGINNINGS if self.rarely() else BEGINNINGS
        return self.rng.choice(beginnings)(self.labelled(depth - 1), self.rng.randrange(ASSIGNMENTS))

    def leader(self):
        """what may have a label"""
        value = self.rng.choice((0, 1, 1, 2, 1 + self.number()))
        if self.rarely():
            value = self.rng.choice((2**32, 2**32 + 1))
        if self.rarely():
            return node("Loop", body([]), value=value)
        return node("Block", block([], a_name(self.number())), value=value)


class Singles(Drawn):
    """Tuples of one member at the ends of assignments, in every place."""

    def statement(self, depth):
        return self.placed(self.single(depth))

    def single(self, depth):
        if depth <= 0 or self.rng.random() < 0.2:
            return self.assigned()
        return self.rng.choice(ENDS)(self.single(depth - 1), self.rng.randrange(ASSIGNMENTS))

    def assigned(self):
        made = self.tuple()
        for _ in range(self.rng.randrange(4)):
            made = assign(self.rng.choice(PATTERNS), made, self.rng.choice((0, 0, 0, self.rng.randrange(ASSIGNMENTS))))
        return made

    def tuple(self):
        members = [a_name(self.number()) for _ in range(self.rng.choice((1, 1, 1, 1, 2)))]
        if self.rarely():
            return self.rng.choice((node("Tuple"), node("Tuple", a_list()), node("Tuple", *members), node("Tuple", a_list(a_list(*members)))))
        return node("Tuple", a_list(*members))


class Places(Drawn):
    """Trees made by what each place takes; what is odd is anything else there. Where nothing may nest the first way of a place is taken."""

    def one_of(self, depth, first, *others):
        if depth <= 0:
            return first(depth)
        return self.anything(depth - 1) if self.rarely() else self.rng.choice((first, *others))(depth - 1)

    def some(self, make, depth, least=0):
        return [make(depth) for _ in range(self.rng.choice((least, 1, 1, 2, 3)) if depth > 0 else least)]

    def maybe(self, make, depth):
        return make(depth) if depth > 0 and self.rng.random() < 0.6 else node("Absent")

    def anything(self, depth):
        return self.rng.choice((
            self.statement, self.control, self.body, self.block, self.expr, self.operand, self.tight, self.atom, self.item, self.field, self.signature,
            self.function, self.pattern, self.any_list, self.any_node))(depth)

    def label(self):
        return self.number()

    def any_list(self, depth):
        return a_list(*self.some(self.anything, depth - 1))

    def any_node(self, depth):
        return (self.rng.randrange(len(NODES) + 3), self.rng.choice(VALUES), self.some(self.anything, depth - 1))

    def statement(self, depth):
        return self.one_of(depth, self.expression, self.expression, self.expression, self.loop, self.while_loop, self.for_loop, self.assertion)

    def expression(self, depth):
        return node("Expression", self.expr(depth))

    def loop(self, depth):
        return node("Loop", self.body(depth), value=self.label())

    def while_loop(self, depth):
        return node("WhileLoop", self.expr(depth), self.body(depth), value=self.label())

    def for_loop(self, depth):
        return node("ForLoop", self.pattern(depth), self.expr(depth), self.body(depth), value=self.label())

    def assertion(self, depth):
        return node("Assert", self.expr(depth))

    def control(self, depth):
        return self.one_of(depth, self.continuing, self.breaking, self.returning)

    def continuing(self, depth):
        return node("Continue", value=self.label())

    def breaking(self, depth):
        return node("Break", self.maybe(self.expr, depth), value=self.label())

    def returning(self, depth):
        return node("Return", self.maybe(self.expr, depth))

    def body(self, depth):
        return body(self.some(self.statement, depth), self.control(depth) if self.rng.random() < 0.2 else None)

    def block(self, depth):
        """it has a result or ends in what leaves it, rarely both"""
        made = self.body(depth)
        ended = made[2][1] != node("Absent") and not self.rarely()
        return node("ExprBlock", made, node("Absent") if ended else self.maybe(self.expr, depth))

    def expr(self, depth):
        return self.one_of(depth, self.operand, self.operand, self.assignment, self.tuple, self.targeted)

    def assignment(self, depth):
        return assign(self.pattern(depth), self.expr(depth), self.rng.choice((0, 0, 1, 2, 3, 4, 6, 14, 43)))

    def tuple(self, depth):
        return node("Tuple", a_list(*[self.operand(depth) for _ in range(self.rng.choice((1, 2, 2, 2, 3)))]))

    def targeted(self, depth):
        """a function with a target, mostly"""
        target = self.rng.choice((self.name_pattern, self.member_pattern, self.index_pattern, self.pattern))(depth)
        name = 1 + target[1] if target[0] == NODE["IdentifierPattern"] else 0
        if self.rng.random() < 0.05:
            name = self.number()
        return assign(target, self.function(depth, name), self.rng.choice((0, 1, 3, 6)) if self.rng.random() < 0.1 else 2)

    def operand(self, depth):
        return self.one_of(depth, self.tight, self.tight, self.tight, self.sum, self.sum, self.sign, self.targeted)

    def sum(self, depth):
        """operators that follow each other, the weaker ones later"""
        made = self.tight(depth)
        for number in sorted(self.rng.randrange(18) for _ in range(self.rng.choice((1, 1, 2, 3)))):
            right = self.operand if self.rng.random() < 0.05 else self.tight
            made = node("BinaryOp", made, right(depth), value=number)
        return made

    def sign(self, depth):
        return node("UnaryOp", self.tight(depth), value=self.rng.randrange(4))

    def tight(self, depth):
        return self.one_of(
            depth, self.atom, self.path, self.path, self.table, self.choice, self.labelled, self.function, self.targeted, self.modified, self.unpacked)

    def path(self, depth):
        return primary(self.atom(depth), *self.some(self.item, depth, least=1))

    def table(self, depth):
        return node("Table", self.items(depth))

    def items(self, depth):
        return a_list(*[item(self.field(depth), self.operand(depth)) for _ in range(self.rng.randrange(3))])

    def choice(self, depth):
        branches = [node("ConditionalBranch", self.expr(depth), self.block(depth)) for _ in range(self.rng.choice((1, 1, 2)))]
        return node("IfExpr", a_list(*branches), self.maybe(self.block, depth))

    def labelled(self, depth):
        return node("Block", self.block(depth), value=self.label())

    def modified(self, depth):
        """a modifier in parentheses, mostly before an assignment with its action"""
        action = self.rng.randrange(ACTIONS)
        kind, value, kids = self.rng.choice((self.assignment, self.targeted))(depth)
        return group((kind, action if self.rng.random() < 0.9 else value, kids), 1 + action)

    def unpacked(self, depth):
        return node("Unpack", self.maybe(self.rng.choice((self.atom, self.path, self.tight)), depth))

    def atom(self, depth):
        return self.one_of(depth, self.name, self.name, self.literal, self.grouped)

    def name(self, depth):
        return a_name(self.number())

    def literal(self, depth):
        kind = self.rng.choice(("Nil", "EmptyTuple", "BooleanLiteral", "IntegerLiteral", "FloatLiteral", "StringLiteral"))
        return node(kind, value={"Nil": 0, "EmptyTuple": 0, "BooleanLiteral": self.rng.randrange(2)}.get(kind, self.number()))

    def grouped(self, depth):
        return group(self.expr(depth))

    def item(self, depth):
        return self.one_of(depth, self.member, self.member, self.index, self.index, self.call, self.call_of_one, self.call_of_table)

    def member(self, depth):
        return node("Attribute", value=self.number())

    def index(self, depth):
        return node("Index", self.rng.choice((self.expr, self.targeted))(depth))

    def call(self, depth):
        return node("Invoke", a_list(*self.some(self.operand, depth)))

    def call_of_one(self, depth):
        return node("Invoke", a_list(self.expr(depth)))

    def call_of_table(self, depth):
        return node("InvokeTable", self.items(depth))

    def field(self, depth):
        return self.one_of(depth, self.named_field, self.index_field)

    def named_field(self, depth):
        return field(self.number())

    def index_field(self, depth):
        return node("FieldIndex", self.expr(depth))

    def signature(self, depth, name=0):
        required = [node("ParamDef", value=self.number()) for _ in range(self.rng.choice((0, 0, 1, 2)))]
        default = [node("DefaultDef", self.expr(depth), value=self.number()) for _ in range(self.rng.choice((0, 0, 0, 1)) + self.rarely())]
        variadic = node("ParamDef", value=self.number()) if self.rng.random() < 0.2 and not default or self.rarely() else node("Absent")
        return node("SignatureDef", a_list(*required), a_list(*default), variadic, value=name)

    def function(self, depth, name=0):
        return node("FunctionDef", self.signature(depth - 1, name), self.block(depth - 1))

    def pattern(self, depth):
        return self.one_of(
            depth, self.name_pattern, self.name_pattern, self.member_pattern, self.index_pattern, self.tuple_pattern, self.packed, self.modified_pattern)

    def name_pattern(self, depth):
        return name_pattern(self.number())

    def receiver(self, depth):
        return primary(self.atom(depth - 1), *self.some(self.rng.choice((self.item, self.member, self.index)), depth - 1))

    def member_pattern(self, depth):
        return node("AttributePattern", self.receiver(depth), value=self.number())

    def index_pattern(self, depth):
        return node("IndexPattern", self.receiver(depth), self.expr(depth - 1))

    def tuple_pattern(self, depth):
        return node("TuplePattern", a_list(*self.some(self.pattern, depth, least=1)))

    def packed(self, depth):
        return node("Pack", self.maybe(self.pattern, depth))

    def modified_pattern(self, depth):
        return node("Modifier", self.pattern(depth), value=self.rng.randrange(ACTIONS))
