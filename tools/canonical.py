"""A model of crates/grammar/specs/Canonical/Write.antt, written from the definition: the canonical tokens of any tree.

A tree is (kind, value, [trees]); tokens are (kind, value). Kinds are the numbers of docs/TREE.md and of the crate token.
"""
NODES = (
    "Absent List Expression Loop WhileLoop ForLoop Assert StmtList Continue Break Return Primary UnaryOp BinaryOp Assignment Unpack "
    "Tuple Table IfExpr Block FunctionDef TableItem ExprBlock ConditionalBranch SignatureDef ParamDef DefaultDef FieldAttribute "
    "FieldIndex Nil EmptyTuple Identifier BooleanLiteral IntegerLiteral FloatLiteral StringLiteral Group Attribute Index Invoke "
    "InvokeTable IdentifierPattern AttributePattern IndexPattern TuplePattern Pack Modifier"
).split()
TOKENS = (
    "OpenParen CloseParen OpenBrace CloseBrace OpenSquare CloseSquare Comma Colon Semicolon Ellipsis Decorator OpAdd OpSub OpMul OpDiv "
    "OpMod OpExp OpInv OpAnd OpOr OpXor OpLShift OpRShift OpAddAssign OpSubAssign OpMulAssign OpDivAssign OpModAssign OpAndAssign "
    "OpOrAssign OpXorAssign OpLShiftAssign OpRShiftAssign OpLT OpLE OpGT OpGE OpEQ OpNE OpAssign OpAccess And Or Not True False Nil Let "
    "Var Local NonLocal Del If Then Elif Else Begin Loop While For In Do Continue Break Return Fun Class Assert End Identifier "
    "StringLiteral IntegerLiteral FloatLiteral Label Comment EOF"
).split()
NODE = {name: number for number, name in enumerate(NODES)}
TOKEN = {name: number for number, name in enumerate(TOKENS)}
NO_TOKEN = 77
BINARY = "OpMul OpDiv OpMod OpAdd OpSub OpLShift OpRShift OpAnd OpXor OpOr OpLT OpGT OpLE OpGE OpEQ OpNE And Or".split()
UNARY = "OpSub OpAdd OpInv Not".split()
ASSIGN = (
    "OpAssign OpMulAssign OpDivAssign OpModAssign OpAddAssign OpSubAssign OpLShiftAssign OpRShiftAssign OpAndAssign OpXorAssign OpOrAssign"
).split()
KEYWORDS = ["Local", "NonLocal", "Let", "Var"]
ATOMS = "Identifier Nil BooleanLiteral IntegerLiteral FloatLiteral StringLiteral".split()


def name(tree):
    """a tree's kind by its name"""
    return NODES[tree[0]] if tree[0] < len(NODES) else ""


def name_at(kids, place):
    return name(kids[place]) if place < len(kids) else "Absent"


def receives(kids):
    """whether an attribute or index of this receiver is a function's target"""
    if not kids or len(kids[0][2]) < 2 or name(kids[0][2][0]) not in ATOMS:
        return False
    return all(name(item) in ("Attribute", "Index") for item in kids[0][2][1][2])


def is_target(tree):
    return name(tree) == "IdentifierPattern" or name(tree) in ("AttributePattern", "IndexPattern") and receives(tree[2])


def has_function(kids):
    """whether a target and a function of its name stand here"""
    if len(kids) < 2 or not is_target(kids[0]) or name(kids[1]) != "FunctionDef" or not kids[1][2]:
        return False
    return kids[1][2][0][1] == (kids[0][1] + 1 if name(kids[0]) == "IdentifierPattern" else 0)


def gives_function(place, value):
    return value == 2 if place == "own" else place == "modified" and value < 4


class Writer:
    """Appends a tree's tokens."""

    def __init__(self):
        self.tokens = []

    def put(self, *names):
        self.tokens += [(TOKEN[name], 0) for name in names]

    def carry(self, name, value):
        self.tokens.append((TOKEN[name], value))

    def numbered(self, names, number):
        self.tokens.append((TOKEN[names[number]] if number < len(names) else NO_TOKEN, 0))

    def keyword(self, number):
        self.put(KEYWORDS[min(number, 3)])

    def label(self, value):
        if value:
            self.carry("Label", value - 1)

    def named(self, value):
        if value % 2:
            self.put("Var")
        self.carry("Identifier", value // 2)

    def parts(self, kids, *parts):
        """in turn: the name of a token, or a child's number, perhaps with its place"""
        for part in parts:
            if isinstance(part, str):
                self.put(part)
            else:
                number, place = part if isinstance(part, tuple) else (part, "own")
                if number < len(kids):
                    self.tree(kids[number], place)

    def tree(self, tree, place="own"):
        if tree[0] < len(NODES):
            getattr(self, NODES[tree[0]])(tree[1], tree[2], place)

    def Absent(self, value, kids, place):
        pass

    def List(self, value, kids, place):
        if place in ("own", "modified", "targeted"):
            return
        if place == "branches" and kids:
            self.put("If")
        for number, kid in enumerate(kids):
            self.tree(kid)
            last = number + 1 == len(kids)
            if place == "commas" and not last or place == "members" and (not last or len(kids) == 1):
                self.put("Comma")
            if place == "suite":
                self.put("Semicolon")
            if place == "branches" and not last:
                self.put("Elif")

    def Expression(self, value, kids, place):
        self.parts(kids, 0)

    def Loop(self, value, kids, place):
        self.label(value)
        self.parts(kids, "Loop", 0, "End")

    def WhileLoop(self, value, kids, place):
        self.label(value)
        self.parts(kids, "While", 0, "Do", 1, "End")

    def ForLoop(self, value, kids, place):
        self.label(value)
        self.parts(kids, "For", 0, "In", 1, "Do", 2, "End")

    def Assert(self, value, kids, place):
        self.parts(kids, "Assert", 0)

    def StmtList(self, value, kids, place):
        self.parts(kids, (0, "suite"), 1)

    def Continue(self, value, kids, place):
        self.put("Continue")
        self.label(value)

    def Break(self, value, kids, place):
        self.put("Break")
        self.label(value)
        self.parts(kids, 0)

    def Return(self, value, kids, place):
        self.parts(kids, "Return", 0)

    def Primary(self, value, kids, place):
        self.parts(kids, 0, (1, "row"))

    def UnaryOp(self, value, kids, place):
        self.numbered(UNARY, value)
        self.parts(kids, 0)

    def BinaryOp(self, value, kids, place):
        self.parts(kids, 0)
        self.numbered(BINARY, value)
        self.parts(kids, 1)

    def Assignment(self, value, kids, place):
        if gives_function(place, value) and has_function(kids):
            self.parts(kids, "Fun", 0, (1, "targeted"))
            return
        if place == "own" and value % 4:
            self.keyword(value % 4)
        self.parts(kids, 0)
        self.numbered(ASSIGN, value // 4)
        self.parts(kids, 1)

    def Unpack(self, value, kids, place):
        self.parts(kids, 0, "Ellipsis")

    def Tuple(self, value, kids, place):
        self.parts(kids, (0, "members"))

    def Table(self, value, kids, place):
        self.parts(kids, "OpenBrace", (0, "commas"), "CloseBrace")

    def IfExpr(self, value, kids, place):
        self.parts(kids, (0, "branches"))
        if name_at(kids, 1) != "Absent":
            self.put("Else")
        self.parts(kids, 1, "End")

    def Block(self, value, kids, place):
        self.label(value)
        self.parts(kids, "Begin", 0, "End")

    def FunctionDef(self, value, kids, place):
        if place in ("own", "modified"):
            self.put("Fun")
        self.parts(kids, 0, 1, "End")

    def TableItem(self, value, kids, place):
        self.parts(kids, 0, "OpAssign", 1)

    def ExprBlock(self, value, kids, place):
        self.parts(kids, 0, 1)
        if name_at(kids, 1) != "Absent":
            self.put("Semicolon")

    def ConditionalBranch(self, value, kids, place):
        self.parts(kids, 0, "Then", 1)

    def SignatureDef(self, value, kids, place):
        required = bool(kids and kids[0][2])
        default = len(kids) > 1 and bool(kids[1][2])
        variadic = name_at(kids, 2) != "Absent"
        self.parts(kids, "OpenParen", (0, "commas"))
        if required and (default or variadic):
            self.put("Comma")
        self.parts(kids, (1, "commas"))
        if default and variadic:
            self.put("Comma")
        self.parts(kids, 2)
        if variadic:
            self.put("Ellipsis")
        self.put("CloseParen")

    def ParamDef(self, value, kids, place):
        self.named(value)

    def DefaultDef(self, value, kids, place):
        self.named(value)
        self.parts(kids, "OpAssign", 0)

    def FieldAttribute(self, value, kids, place):
        self.named(value)

    def FieldIndex(self, value, kids, place):
        self.parts(kids, "OpenSquare", 0, "CloseSquare")

    def Nil(self, value, kids, place):
        self.put("Nil")

    def EmptyTuple(self, value, kids, place):
        self.put("OpenParen", "CloseParen")

    def Identifier(self, value, kids, place):
        self.carry("Identifier", value)

    def BooleanLiteral(self, value, kids, place):
        self.put("True" if value else "False")

    def IntegerLiteral(self, value, kids, place):
        self.carry("IntegerLiteral", value)

    def FloatLiteral(self, value, kids, place):
        self.carry("FloatLiteral", value)

    def StringLiteral(self, value, kids, place):
        self.carry("StringLiteral", value)

    def Group(self, value, kids, place):
        self.put("OpenParen")
        if value:
            self.keyword(value - 1)
        self.parts(kids, (0, "modified" if value else "own"), "CloseParen")

    def Attribute(self, value, kids, place):
        self.put("OpAccess")
        self.carry("Identifier", value)

    def Index(self, value, kids, place):
        self.parts(kids, "OpenSquare", 0, "CloseSquare")

    def Invoke(self, value, kids, place):
        self.parts(kids, "OpenParen", (0, "commas"), "CloseParen")

    def InvokeTable(self, value, kids, place):
        self.parts(kids, "OpenBrace", (0, "commas"), "CloseBrace")

    def IdentifierPattern(self, value, kids, place):
        self.carry("Identifier", value)

    def AttributePattern(self, value, kids, place):
        self.parts(kids, 0, "OpAccess")
        self.carry("Identifier", value)

    def IndexPattern(self, value, kids, place):
        self.parts(kids, 0, "OpenSquare", 1, "CloseSquare")

    def TuplePattern(self, value, kids, place):
        self.parts(kids, "OpenParen", (0, "members"), "CloseParen")

    def Pack(self, value, kids, place):
        inner = ["OpenParen", 0, "CloseParen"] if name_at(kids, 0) == "Pack" else [0]
        self.parts(kids, *inner, "Ellipsis")

    def Modifier(self, value, kids, place):
        self.put("OpenParen")
        self.keyword(value)
        self.parts(kids, 0, "CloseParen")


def statement(tree):
    """The canonical tokens of a statement, its semicolon included."""
    writer = Writer()
    writer.tree(tree)
    writer.put("Semicolon")
    return writer.tokens


def decode(words):
    """The tree whose records these words are, or None."""
    if len(words) % 2:
        return None
    trees = []
    for word, value in zip(words[::2], words[1::2]):
        count = word // 256
        if len(trees) < count:
            return None
        kids = trees[len(trees) - count:]
        del trees[len(trees) - count:]
        trees.append((word % 256, value, kids))
    return trees[0] if len(trees) == 1 else None
