"""Trees with functions for compare/writer: with targets nested in each other, every sort of target with every sort of function, and any parameters."""
from canonical import NODE
from trees import (ACTIONS, LABELLED, LEVELS, SINGLE, Drawn, a_list, a_name, assign, begin_end, block, function, group, index_pattern, name_pattern, node,
                   primary)


class Functions(Drawn):
    """Functions with targets, nested in each other. What is odd is what `fun` with a target does not give."""

    def statement(self, depth):
        made = self.operand(depth)
        return node("Assert", made) if self.rng.random() < 0.1 else node("Expression", made)

    def operand(self, depth):
        r = self.rng.random()
        if depth <= 0:
            return a_name(self.number())
        if r < 0.55:
            return self.assignment(depth)
        if r < 0.70:
            action = self.rng.randrange(ACTIONS)
            return group(self.assignment(depth, self.number() % ACTIONS if self.rarely() else action), 1 + action)
        if r < 0.80:
            return self.function(depth, self.number() if self.rarely() else 0)
        return self.rng.choice(LEVELS)(self.operand(depth - 1), self.number())

    def assignment(self, depth, action=2):
        """the name in the signature is mostly the target's"""
        target = self.target(depth - 1)
        name = 1 + target[1] if target[0] == NODE["IdentifierPattern"] else 0
        if self.rarely():
            name = self.rng.choice((0, 1 + self.number()))
        if self.rarely():
            action = self.rng.choice((0, 1, 2, 3, 2 + 4 * self.rng.randrange(20)))
        return assign(target, self.function(depth, name), action)

    def target(self, depth):
        r = self.rng.random()
        if self.rarely():
            return self.no_target(depth)
        if r < 0.25:
            return name_pattern(self.number())
        if r < 0.6:
            return node("AttributePattern", self.receiver(depth), value=self.number())
        return node("IndexPattern", self.receiver(depth), self.operand(depth))

    def no_target(self, depth):
        """a pattern that `fun` does not take"""
        wrap = self.rng.choice(("TuplePattern", "Pack", "Modifier"))
        inner = self.target(depth - 1) if depth > 0 else name_pattern(self.number())
        if wrap == "TuplePattern":
            return node(wrap, a_list(inner, name_pattern(self.number())))
        return node(wrap, inner, value=self.number() % ACTIONS if wrap == "Modifier" else 0)

    def receiver(self, depth):
        return primary(self.atom(depth), *[self.path_item(depth) for _ in range(self.rng.choice((0, 1, 1, 2, 3)))])

    def atom(self, depth):
        if self.rarely():
            return self.rng.choice((node("EmptyTuple"), group(self.operand(depth))))
        kind = self.rng.choice(("Identifier", "Identifier", "Identifier", "Nil", "BooleanLiteral", "IntegerLiteral", "FloatLiteral", "StringLiteral"))
        return node(kind, value={"Nil": 0, "BooleanLiteral": self.rng.randrange(2)}.get(kind, self.number()))

    def path_item(self, depth):
        if self.rarely():
            return node("Invoke", a_list(*[self.operand(depth - 1) for _ in range(self.rng.randrange(3))]))
        if self.rng.random() < 0.4:
            return node("Attribute", value=self.number())
        return node("Index", self.operand(depth))

    def function(self, depth, name):
        required = [node("ParamDef", value=self.number()) for _ in range(self.rng.choice((0, 0, 1, 2)))]
        r = self.rng.random()
        default = [node("DefaultDef", self.operand(depth - 1), value=self.number())] if r < 0.2 else []
        variadic = node("ParamDef", value=self.number()) if 0.2 < r < 0.3 or self.rarely() else None
        return function(name, self.suite(depth - 1), required, default, variadic)

    def suite(self, depth):
        if depth <= 0 or self.rng.random() < 0.3:
            return block([])
        statements = [self.statement(depth) for _ in range(self.rng.choice((0, 1, 1, 2)))]
        return block(statements, self.operand(depth))


ATOMS = [
    a_name(0), a_name(1), node("Nil"), node("BooleanLiteral", value=1), node("IntegerLiteral", value=3), node("FloatLiteral", value=4),
    node("StringLiteral", value=5), node("EmptyTuple"), group(a_name(0)), node("Table", a_list()), function(0, block([])),
]
# What is no receiver, though a receiver's parts are in it.
NO_RECEIVERS = [
    a_name(0), a_list(), node("Primary", a_name(0)), node("Primary", a_name(0), a_name(1)), node("Primary", a_name(0), node("Absent")),
    node("Primary", a_name(0), a_list(), a_list()), group(primary(a_name(0))),
]
NO_TARGETS = [
    node("TuplePattern", a_list(name_pattern(0))), node("TuplePattern", a_list(name_pattern(0), name_pattern(1))), node("Pack", name_pattern(0)),
    node("Pack", node("Absent")), node("Modifier", name_pattern(0), value=2), node("AttributePattern"), node("IndexPattern", primary(a_name(0))),
    node("AttributePattern", primary(a_name(0)), a_name(1)), node("IndexPattern", primary(a_name(0)), a_name(1), a_name(2)), node("Absent"), a_list(), a_name(0),
]
NO_FUNCTIONS = [
    node("FunctionDef"), node("FunctionDef", block([])), node("FunctionDef", node("SignatureDef", value=1), block([])), a_name(0),
    node("FunctionDef", node("Absent"), block([])), group(function(0, block([]))), function(2**32, block([])), function(2**32 + 1, block([])),
]


class Targets(Drawn):
    """Every sort of target with every sort of function, action and place. What is odd has not the children of its kind, or another kind."""

    def statement(self, depth):
        return self.placed(self.assignment(depth))

    def assignment(self, depth):
        if self.rarely():
            kids = [self.target(depth), self.function(depth, 0), name_pattern(0), function(1, block([]))]
            return node("Assignment", *self.rng.sample(kids, self.rng.randrange(4)), value=2)
        target = self.target(depth)
        name = 1 + target[1] if target[0] == NODE["IdentifierPattern"] else 0
        action = self.rng.choice((0, 1, 2, 2, 2, 2, 3, 6, 14, 43, 44))
        return assign(target, self.function(depth, self.rng.choice((name, name, name, 0, 1, 2))), action)

    def target(self, depth):
        if self.rarely():
            return self.rng.choice(NO_TARGETS)
        r = self.rng.random()
        if r < 0.3:
            return name_pattern(self.rng.randrange(3))
        if r < 0.65:
            return node("AttributePattern", self.receiver(depth), value=self.number())
        return node("IndexPattern", self.receiver(depth), self.index(depth))

    def receiver(self, depth):
        if self.rarely():
            return self.rng.choice(NO_RECEIVERS)
        atom = self.rng.choice(ATOMS) if self.rng.random() < 0.5 else a_name(0)
        return primary(atom, *[self.path_item(depth) for _ in range(self.rng.choice((0, 1, 1, 2, 3)))])

    def path_item(self, depth):
        r = self.rng.random()
        if r < 0.45:
            return node("Attribute", value=self.number())
        if r < 0.9:
            return node("Index", self.index(depth))
        return self.rng.choice((node("Invoke", a_list()), node("Invoke", a_list(a_name(0))), node("InvokeTable", a_list())))

    def index(self, depth):
        if depth <= 0 or self.rng.random() < 0.6:
            return a_name(self.number())
        return self.assignment(depth - 1)

    def function(self, depth, name):
        if self.rarely():
            return self.rng.choice(NO_FUNCTIONS)
        required = [node("ParamDef", value=self.number())] if self.rng.random() < 0.3 else []
        return function(name, block([], self.index(depth) if self.rng.random() < 0.4 else None), required)


class Signatures(Drawn):
    """Functions with any parameters: more than one default, a default and a variadic parameter, and what they take alone. What is odd is no parameter."""

    def statement(self, depth):
        return self.placed(self.made(depth))

    def made(self, depth):
        """a function alone, or with a target"""
        r = self.rng.random()
        n = self.number()
        if r < 0.5:
            return self.function(depth, 0)
        if r < 0.7:
            return assign(name_pattern(n), self.function(depth, 1 + n), 2)
        return assign(index_pattern(n, a_name(n)), self.function(depth, 0), 2)

    def function(self, depth, name):
        required = [self.parameter() for _ in range(self.rng.choice((0, 0, 1, 2)))]
        default = [self.default(depth) for _ in range(self.rng.choice((0, 1, 1, 1, 2, 3)))]
        variadic = self.parameter() if self.rng.random() < (0.2 if default else 0.5) else None
        return function(name, block([]), required, default, variadic)

    def parameter(self):
        if self.rarely():
            return self.rng.choice((a_name(0), name_pattern(0), node("DefaultDef", a_name(0)), node("ParamDef", a_name(0))))
        return node("ParamDef", value=self.number())

    def default(self, depth):
        if self.rarely():
            return self.rng.choice((a_name(0), node("ParamDef"), node("DefaultDef"), node("DefaultDef", a_name(0), a_name(1))))
        return node("DefaultDef", self.given(depth), value=self.number())

    def given(self, depth):
        """a default's value: what a comma or an equals sign behind it would be taken into, and what it would not"""
        if depth > 0 and self.rng.random() < 0.4:
            return self.made(depth - 1)
        n = self.number()
        return self.rng.choice((
            a_name(n), group(a_name(n)), SINGLE, node("Tuple", a_list(a_name(n), a_name(n))), group(SINGLE), LABELLED, assign(name_pattern(n), a_name(n)),
            assign(name_pattern(n), SINGLE), node("Unpack", a_name(n)), node("Unpack", node("Absent")), begin_end([], a_name(n)),
            primary(a_name(n), node("Attribute", value=n))))
