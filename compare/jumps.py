"""Trees for compare/labels: breaks and continues, jumps for short, in every place of loops, blocks, functions and branches that stand in each other.

A place takes a statement s and gives one with s in it; v is the value of what has a label, 0 or 1 + its name. What a place gives can be read where s can.
"""
import collections

from canonical import NODE
from statements import Places
from trees import a_list, a_name, assign, block, body, field, function, group, if_then, index_pattern, item, name_pattern, node, primary, records

NAME = a_name(0)
NOTHING = node("Absent")
LABELS = (0, 1, 2)  # of what is drawn: none and two names, so that a label often stands round a jump and often does not
SOUGHT = 3  # the first label of those that stand at one level of a deep tree


def stated(e):
    return node("Expression", e)


def operand(s):
    """a statement as an operand, with no loop or block round it: a branch of an if is none"""
    return s[2][0] if s[0] == NODE["Expression"] else if_then(NAME, suite(s))


def suite(s):
    """a block's part, of one statement, which is its result where it can be"""
    return block([], s[2][0]) if s[0] == NODE["Expression"] else block([s])


def begin(inner, v):
    """a `begin` block as a statement, which must not begin with a label"""
    made = node("Block", inner, value=v)
    return stated(group(made) if v else made)


def jump_to(kind, v):
    return node("Break", NOTHING, value=v) if kind == "Break" else node("Continue", value=v)


def jumping(jump):
    """a jump as a statement, with no loop or block round it"""
    return stated(if_then(NAME, block([], control=jump)))


def argument(s, *before, behind=()):
    """a statement among a call's arguments"""
    return stated(primary(NAME, node("Invoke", a_list(*before, operand(s), *behind))))


# The statement list of a loop, and a block: what a jump can lead to.
INSIDE = [
    lambda s, v: node("Loop", body([s]), value=v),
    lambda s, v: node("WhileLoop", NAME, body([s]), value=v),
    lambda s, v: node("ForLoop", name_pattern(0), NAME, body([s]), value=v),
    lambda s, v: node("Loop", body([stated(NAME)], node("Break", operand(s), value=v)), value=v),
    lambda s, v: begin(suite(s), v),
    lambda s, v: begin(block([s], NAME), v),
    lambda s, v: begin(block([], control=node("Break", operand(s))), v),
]
# A loop's other children.
BESIDE = [
    lambda s, v: node("WhileLoop", operand(s), body([]), value=v),
    lambda s, v: node("ForLoop", name_pattern(0), operand(s), body([]), value=v),
    lambda s, v: node("ForLoop", index_pattern(0, operand(s)), NAME, body([]), value=v),
    lambda s, v: node("ForLoop", node("AttributePattern", primary(NAME, node("Index", operand(s)))), NAME, body([]), value=v),
    lambda s, v: node("ForLoop", node("TuplePattern", a_list(node("Pack", index_pattern(0, operand(s))), name_pattern(1))), NAME, body([]), value=v),
]
# A function's body, and besides its default and its target.
BODIES = [
    lambda s, v: stated(function(0, suite(s))),
    lambda s, v: stated(function(0, block([s], control=node("Return", NOTHING)))),
    lambda s, v: stated(function(0, block([], control=node("Return", operand(s))))),
    lambda s, v: stated(assign(name_pattern(v), function(1 + v, suite(s), variadic=node("ParamDef", value=v)), 2)),
]
FUNCTIONS = BODIES + [
    lambda s, v: stated(function(0, block([]), default=[node("DefaultDef", operand(s), value=v)])),
    lambda s, v: stated(function(0, block([], control=node("Return", NOTHING)), required=[node("ParamDef")], default=[node("DefaultDef", operand(s))])),
    lambda s, v: stated(assign(index_pattern(v, operand(s)), function(0, block([])), 2)),
]
# What stands where the whole stands.
PLAIN = [
    lambda s, v: stated(if_then(operand(s), block([]))),
    lambda s, v: stated(if_then(NAME, suite(s))),
    lambda s, v: stated(if_then(NAME, block([s], NAME), block([]))),
    lambda s, v: stated(if_then(NAME, block([]), suite(s))),
    lambda s, v: stated(if_then(NAME, block([], control=node("Return", operand(s))))),
    lambda s, v: stated(if_then(NAME, block([s], control=node("Break", NAME, value=v)))),
    lambda s, v: stated(if_then(NAME, block([], control=node("Break", operand(s), value=v)))),
    lambda s, v: node("Assert", operand(s)),
    lambda s, v: argument(s),
    lambda s, v: stated(node("Table", a_list(item(field(v), operand(s))))),
    lambda s, v: stated(group(assign(index_pattern(v, operand(s)), NAME))),
    lambda s, v: stated(group(assign(name_pattern(v), operand(s)))),
]
EVERY_PLACE = INSIDE + BESIDE + FUNCTIONS + PLAIN


def every_two():
    """each jump, with no label and with each of two, in each place with no label and with one, that in each place"""
    for jump in [jump_to(kind, v) for kind in ("Break", "Continue") for v in LABELS]:
        for inner in [place(jumping(jump), v) for place in EVERY_PLACE for v in (0, 1)]:
            yield from (place(inner, v) for place in EVERY_PLACE for v in (0, 1))


def any_jump(rng, labels=LABELS):
    return jumping(jump_to(rng.choice(("Break", "Continue")), rng.choice(labels)))


def nested(rng, count):
    """a jump in so many places, with another beside it now and then"""
    s = any_jump(rng)
    for _ in range(count):
        s = rng.choice(rng.choice((INSIDE, INSIDE, BESIDE, FUNCTIONS, PLAIN)))(s, rng.choice(LABELS))
        if rng.random() < 0.1:
            s = with_other(rng, s, any_jump(rng))
    return s


def with_other(rng, s, other):
    """a statement with another before or behind it"""
    return argument(s, operand(other)) if rng.random() < 0.5 else argument(s, behind=[operand(other)])


class Jumps(Places):
    """Trees made by what each place takes, mostly of loops, blocks, branches and functions, whose lists end in jumps with a chance that a tree has throughout."""

    def __init__(self, rng, odd):
        super().__init__(rng, odd)
        self.often = rng.choice((0.05, 0.2, 0.5))

    def label(self):
        return self.rng.choice(LABELS)

    def statement(self, depth):
        return self.one_of(depth, self.expression, self.expression, self.loop, self.while_loop, self.for_loop, self.assertion)

    def body(self, depth):
        return body(self.some(self.statement, depth), self.control(depth) if self.rng.random() < self.often else None)

    def block(self, depth):
        """a last statement that is an expression is the result, as it is when it is read"""
        made = super().block(depth)
        (_, _, [(_, _, statements), control]), result = made[2]
        last = [s[2][0] for s in statements[-1:] if s[0] == NODE["Expression"] and s[2]]
        if not last or control != NOTHING or result != NOTHING or self.rarely():
            return made
        return block(statements[:-1], last[0])

    def control(self, depth):
        return self.one_of(depth, self.continuing, self.continuing, self.breaking, self.breaking, self.returning)

    def expr(self, depth):
        return self.one_of(depth, self.tight, self.tight, self.tight, self.assignment, self.tuple, self.targeted)

    def tuple(self, depth):
        """in parentheses, where one member is enough"""
        return group(super().tuple(depth))

    def assignment(self, depth):
        return group(assign(self.pattern(depth), self.tight(depth)))

    def targeted(self, depth):
        """a function with a target that `fun` takes"""
        n = self.number()
        return self.rng.choice((
            lambda: assign(name_pattern(n), self.function(depth, 1 + n), 2), lambda: assign(index_pattern(n, self.tight(depth)), self.function(depth), 2)))()

    def operand(self, depth):
        return self.one_of(depth, self.tight, self.tight, self.tight, self.sum, self.sign)

    def tight(self, depth):
        return self.one_of(
            depth, self.atom, self.path, self.table, self.choice, self.choice, self.choice, self.labelled, self.labelled, self.labelled, self.function)

    def labelled(self, depth):
        """a block with a label in parentheses, mostly"""
        made = super().labelled(depth)
        return made if self.rarely() else group(made)


# Many levels.

def level(rng, count, edge):
    """the number of a level, from the outermost: one of the first or the last, one about `edge`, or any"""
    about = edge + rng.randrange(-3, 3)
    return min(rng.choice((rng.randrange(3), count - 1 - rng.randrange(3), about, about, rng.randrange(count))), count - 1)


def reaching(rng, sought, at):
    """a jump inside the level `at`, mostly with no label or one that is sought further out"""
    outer = [v for number, v in sought.items() if number <= at]
    return any_jump(rng, (0, *outer, *outer) if rng.random() < 0.9 else (1, *sought.values()))


def deep(rng, count, edge):
    """A jump in so many levels that it could lead to, mostly of one to three sorts. A few have a label that stands nowhere else and is sought, one may be of another sort,
    a few have a jump beside what they hold, and in some trees there are levels between that no jump can lead to."""
    sorts, common = rng.sample(INSIDE, rng.randrange(1, 4)), rng.choice(((0,), (1,), (0, 1)))
    levels = [(rng.choice(sorts), rng.choice(common)) for _ in range(count)]
    sought = {level(rng, count, edge): SOUGHT + number for number in range(rng.randrange(1, 4))}
    levels = [(rng.choice(INSIDE), sought[number]) if number in sought else made for number, made in enumerate(levels)]
    if rng.random() < 0.5:
        levels[level(rng, count, edge)] = rng.choice(rng.choice((BODIES, BODIES, FUNCTIONS, BESIDE))), 0
    others = {level(rng, count, edge) for _ in range(rng.randrange(4))}
    between = collections.Counter(rng.choices(range(count), k=rng.choice((0, 0, 0, count // 3))))
    s = reaching(rng, sought, count)
    for number, (place, v) in reversed(list(enumerate(levels))):
        if number in others:
            s = with_other(rng, s, reaching(rng, sought, number))
        for _ in range(between[number]):
            s = rng.choice(PLAIN + BESIDE)(s, 0)
        s = place(s, v)
    return s


def of_size(s, size):
    """the statement as an argument before so many others that the tree has `size` records; none if it has more"""
    more = size - len(records(argument(s)))
    return argument(s, behind=[NAME] * more) if more >= 0 else None


def dense(rng, size):
    """a jump in as many levels as a tree of `size` records has room for, loops without a condition mostly, and a few of other sorts"""
    made, s = None, any_jump(rng, (0, 1, SOUGHT))
    while (fitting := of_size(s, size)) is not None:
        made, place = fitting, INSIDE[0] if rng.random() < 0.9 else rng.choice(EVERY_PLACE)
        s = place(s, rng.choice((0, 1, 1, SOUGHT if rng.random() < 0.1 else 2)))
    return made


def row(rng, fine, count):
    """so many statements in which every jump leads somewhere, and a jump or two among them, all in a place"""
    made = rng.choices(fine, k=count)
    for _ in range(rng.choice((0, 1, 1, 2))):
        made.insert(rng.randrange(count + 1), any_jump(rng))
    inner = stated(if_then(NAME, block(made, NAME)))
    return rng.choice(EVERY_PLACE)(inner, rng.choice(LABELS))
