"""Sheets for compare/levels, in families: `every place`, `damaged`, `waiting` and `numbers` (README.md).

A sheet is made of templates, words in the notation of oracle/tokens.py in which `E` stands for an expression and `S` for the statements of a list.
Imported behind programs.py, which adds the folders of oracle/ and tools/ to the path.
"""
import functools
import tokens
from gen import Gen
from stored import LEVELS

EXPRESSION, STATEMENTS = "E", "S"
MOST_TOKENS = 300  # a longer sheet is drawn anew
SIGNS = "- + ~ not".split()
ATOMS = "a b c 1 2 nil true s3 f4".split()


def templates(text):
    return [row.split() for row in text.strip("\n").split("\n")]


# What can stand as an operand. A label is in parentheses, since at a statement's start it would be a loop's.
OPERANDS = templates("""
( E )
( local E )
( E ) . b
( E ) [ E ]
( E ) ( E )
( E ) ...
a [ E ]
a . b [ E ] ( E )
a ( E , E )
a ( E , b ... )
a { b = E , [ E ] = E }
{ a = E , var b = E , [ E ] = E }
( E , E )
( E , )
( a = E )
( let a = E )
( a [ E ] = E )
( ( E ) . a = E )
( a . b [ E ] += E )
( ( E ) [ E ] . b [ E ] , c = E )
( var ( a [ E ] , b . c ... ) = E )
if E then E end
if E then S elif E then E else S end
begin E end
begin S E end
( ::1 begin S break ::1 E end )
fun ( ) return E end
fun f ( a ) E end
fun ( a , let b = E ) S E end
fun ( a = E , E ) E end
fun a [ E ] ( b ) E end
fun a [ E ] . b ( c = E ) S end
""")

WHOLE = templates("""
E
E , E
assert E
let a = E
a = b = E
a [ E ] = E
a . b [ E ] -= E
( E ) [ E ] = E
( E ) . a = E , E
a ( E ) [ E ] . b = E
a , ( E ) [ E ] , b ... = E
( let a [ E ] , b ) = E
nonlocal a [ E ] [ E ] = E
a [ E ] ... = E
while E do S end
::1 while E , E do S continue ::1 end
for a in E do S end
for a [ E ] , ( E ) . b in E , E do S break E end
for var ( a , b [ E ] ) in E do S end
loop S break E end
::2 loop S break ::2 E end
loop fun ( ) S return E end end
fun a [ E ] [ E ] . b ( ) S E end
""")

# Statements that fail or whose control is not last. In a list most of them leave an error that waits, while the list is read on.
BAD = templates("""
)
]
...
let a
E = E
( E
a [ E
a ( E
a . 1
{ a E }
{ a = E , b
E *
E then
E LEXERR
E LEXERR E
LEXERR
assert
while E
for a in E
for E in E do end
if E E end
fun 1 ( ) E end
fun ( a b ) E end
fun ( a ... , b ) E end
fun ( a ... = E ) E end
continue ; a
break E ; a
return E ; a
class
""")

# Where a list stands from which errors can wait: in every statement, and in the places of a tree that patterns, targets and defaults are made of.
LISTS = templates("""
begin S E end
E * begin S E end
loop S break E end
while begin S E end do S end
for a in begin S E end do S end
for a [ begin S E end ] in E do S end
if E then S E else S E end
if begin S E end then S end
fun ( a = begin S E end ) S E end
fun a [ begin S E end ] ( ) S E end
a [ begin S E end ] = E
( begin S E end ) . a = E
( E + begin S end ) [ E ] , b = begin S E end
( let a [ begin S E end ] ) = E
{ a = begin S E end , [ begin S end ] = E }
a ( E , begin S E end )
assert - begin S E end
fun ( ) S return E end
""")

PARAMETERS = templates("""
a
let a
var b
a ...
let b ...
a ... ...
a = E
var a = E
a = E , E
a = b = E
a = ( E , E )
a = b ...
a = ...
a ... = E
a = fun ( b = E ) E end
a = begin S E end
1
( a )
=
""")
TARGETS = templates("f\na . b\na [ E ]\n( a )\n1 . b") + [[], [], []]
SEPARATORS = [[","]] * 8 + [[], ["..."], [";"], ["LEXERR"]]
CLOSINGS = [[")"]] * 8 + [[], ["]"], ["}"], [",", ")"], [",", ",", ")"], ["...", ")"], ["end"], ["LEXERR"]]

ELLIPSES = templates("""
...
... ...
a ...
a ... ...
a ... ... ...
( a ... ) ...
( ( a ... ) ... ) ...
( ... ) ...
E ...
E ... ...
- a ... ...
a ... * b ...
a ... [ E ]
a ( b ... ... )
a ( b ... ) ...
a ( ... ) ...
a [ b ... ] ...
{ a = b ... ... }
if a ... then ... ... end
... = E
a ... = E
a ... ... = E
( ... ) ... = E
( a ... ) ... = E
a , ( b ... ) ... = E
let ( ( a ... ) ... , b ) = E
for a ... ... in E do S end
for ( a ... ) ... in E do S end
""")


@functools.lru_cache(None)
def token(word):
    return tokens.token(word)


class Sheets:
    """Sheets of the families from one source of chance. `bad` is the chance that a statement of a list is one of BAD."""

    def __init__(self, rng):
        self.rng = rng
        self.gen = Gen(rng, 0)  # for what it damages
        self.bad = 0

    def operator(self):
        return self.rng.choice(self.rng.choice(LEVELS))

    def expression(self, depth):
        out = self.operand(depth)
        for _ in range(self.rng.choice((0, 1, 1, 2, 3, 5))):
            out.append(self.operator())
            out += self.operand(depth)
        return out

    def operand(self, depth):
        out = []
        while self.rng.random() < 0.2:
            out.append(self.rng.choice(SIGNS))
        if depth > 0 and self.rng.random() < 0.35:
            return out + self.filled(self.rng.choice(OPERANDS), depth)
        return out + [self.rng.choice(ATOMS)]

    def filled(self, template, depth):
        """a template's words, with something in the place of each `E` and `S`"""
        out = []
        for word in template:
            if word == EXPRESSION:
                out += self.expression(depth - 1)
            elif word == STATEMENTS:
                out += self.statements(depth - 1)
            else:
                out.append(word)
        return out

    def statements(self, depth):
        """a list's statements, each with a semicolon behind it; at depth 0 at most one"""
        out = []
        for _ in range(self.rng.choice((0, 1, 2)) if depth > 0 else self.rng.randrange(2)):
            chosen = self.rng.choice(BAD if self.rng.random() < self.bad else WHOLE)
            out += self.filled(chosen, depth) + [";"]
        return out

    def some(self, choices, count):
        """one of the templates or more, up to so many, as statements"""
        out = []
        for _ in range(self.rng.randrange(1, count + 1)):
            out += self.filled(self.rng.choice(choices), self.rng.randrange(1, 4)) + [";"]
        return out

    def parameters(self):
        """a function from its target to its `end`, whose parameters are whole or not"""
        out = ["fun"] + self.filled(self.rng.choice(TARGETS), 1) + ["("]
        for number in range(self.rng.choice((0, 1, 1, 2, 2, 3, 4))):
            out += self.rng.choice(SEPARATORS) if number else []
            out += self.filled(self.rng.choice(PARAMETERS), 1)
        return out + self.rng.choice(CLOSINGS) + self.statements(1) + ["end", ";"]

    def damaged(self, toks):
        """the sheet as it is or damaged, with the same chance"""
        return self.gen.damage(toks) if self.rng.random() < 0.5 else toks

    # whole sheets

    def every_place(self):
        self.bad = 0
        return [token(word) for word in self.some(WHOLE, 3) + ["EOF"]]

    def damaged_places(self):
        return self.gen.damage(self.every_place())

    def waiting(self):
        self.bad = 0.4
        return self.damaged([token(word) for word in self.some(LISTS, 2) + ["EOF"]])

    def numbers(self):
        self.bad = 0.2
        out = []
        for _ in range(self.rng.choice((1, 1, 2, 3))):
            out += self.parameters() if self.rng.random() < 0.6 else self.some(ELLIPSES, 1)
        if self.rng.random() < 0.5:
            out = ["begin"] + out + ["end"]
        return self.damaged([token(word) for word in out + ["EOF"]])


FAMILIES = {"every place": Sheets.every_place, "damaged": Sheets.damaged_places, "waiting": Sheets.waiting, "numbers": Sheets.numbers}


def made(family, rng, count):
    """so many sheets of a family, as the programs read them"""
    sheets, out = Sheets(rng), []
    while len(out) < count:
        toks = FAMILIES[family](sheets)
        if len(toks) <= MOST_TOKENS:
            out.append("sheet %s %d\n" % (family, len(out)) + tokens.lines(toks))
    return "".join(out)
