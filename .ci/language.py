"""The round language, read from docs/LANGUAGE.md a second time, in Python: sources are parsed by
descent, checked, and evaluated as trees. It shares nothing with the crates; .ci/reading.py reads
schedules and runs beside it."""
import collections
import re

LARGEST = 2**32 - 1
VALUES, PERIOD, VARIABLES, FIELDS = 64, 8, 16, 8
NAME_LIMIT, NESTING = 32, 32

KEYWORDS = set(
    """values period state input decide at message send when on end num bool set row if then else or
    and not union minus inter div mod true false empty all zero single has size least me n t round
    phase dest from""".split()
)
TYPES = ("num", "bool", "set", "row")
# The operators, from the loosest; behind `and` comes `not`, and a comparison stands alone.
LEVELS = (
    ("or",),
    ("and",),
    ("=", "<>", "<", "<=", ">", ">="),
    ("+", "-", "union", "minus"),
    ("div", "mod", "inter"),
)
COMPARISON = 2
CALLS = {"single": 1, "size": 1, "least": 1, "has": 2}
WORDS = {"true", "false", "empty", "all", "zero", "me", "n", "t", "round", "phase", "dest", "from"}
# For each form that has one type only: what its parts are, and what it is.
SIGNATURES = {
    **{it: (("num", "num"), "num") for it in ("+", "-", "div", "mod")},
    **{it: (("num", "num"), "bool") for it in ("<", "<=", ">", ">=")},
    **{it: (("bool", "bool"), "bool") for it in ("and", "or")},
    **{it: (("set", "set"), "set") for it in ("union", "inter", "minus")},
    **{it: ((), "num") for it in ("number", "me", "n", "t", "round", "phase", "dest", "from")},
    **{it: ((), "bool") for it in ("true", "false")},
    **{it: ((), "set") for it in ("empty", "all")},
    "zero": ((), "row"),
    "not": (("bool",), "bool"),
    "single": (("num",), "set"),
    "has": (("set", "num"), "bool"),
    "size": (("set",), "num"),
    "least": (("set",), "num"),
    "entry": (("row", "num"), "num"),
    "set of": (("bool",), "set"),
    "row of": (("num",), "row"),
}
Token = collections.namedtuple("Token", "kind text first after")
Declaration = collections.namedtuple("Declaration", "kind name type value")
Block = collections.namedtuple("Block", "number fields when sent message end")
Program = collections.namedtuple("Program", "values period declarations blocks")


class Refused(Exception):
    """An input that is refused; its text is the line."""


# Sources


def tokens(text):
    """Parts a source into its tokens; the last is an empty one at the text's end."""
    pattern = re.compile(
        rb"(?P<space>[ \t\r\n]+|#[^\n]*)|(?P<name>[A-Za-z_][A-Za-z0-9_]*)|(?P<number>[0-9]+)"
        rb"|(?P<symbol>:=|<>|<=|>=|[][(){}:;,=<>+-])"
    )
    found, at = [], 0
    while at < len(text):
        match = pattern.match(text, at)
        if not match:
            after = at + len(text[at:].decode()[0].encode())
            raise Refused(f"source 1 at {at} {after}")
        if match.lastgroup != "space":
            found.append(Token(match.lastgroup, match.group().decode(), at, match.end()))
        at = match.end()
    return [*found, Token("end", "", at, at)]


class Tree:
    """An expression: its form, its name or number, its parts, and how deep it nests."""

    def __init__(self, form, *parts, name=None):
        self.form, self.parts, self.name = form, parts, name
        self.depth = 1 + max((it.depth for it in parts), default=0)


class Parser:
    """Reads a program by descent. `outer` is how many forms are open round an expression."""

    def __init__(self, text):
        self.tokens, self.at = tokens(text), 0

    def sees(self, *texts):
        return self.tokens[self.at].text in texts

    def take(self):
        self.at += 1
        return self.tokens[self.at - 1]

    def refuse(self, cause):
        token = self.tokens[self.at]
        raise Refused(f"source {cause} at {token.first} {token.after}")

    def expect(self, *texts):
        for text in texts:
            if not self.sees(text):
                self.refuse(2)
            self.take()

    def number(self, least=0, largest=LARGEST):
        if self.tokens[self.at].kind != "number":
            self.refuse(2)
        if not least <= int(self.tokens[self.at].text) <= largest:
            self.refuse(5)
        return int(self.take().text)

    def sees_name(self):
        return self.tokens[self.at].kind == "name" and self.tokens[self.at].text not in KEYWORDS

    def name(self, is_one_too_many=False):
        if not self.sees_name():
            self.refuse(2)
        if is_one_too_many or len(self.tokens[self.at].text) > NAME_LIMIT:
            self.refuse(5)
        return self.take().text

    def type(self):
        if not self.sees(*TYPES):
            self.refuse(2)
        return self.take().text

    def listed(self, item):
        """Reads a list in round brackets."""
        found = []
        self.expect("(")
        if not self.sees(")"):
            found.append(item(found))
            while self.sees(","):
                self.take()
                found.append(item(found))
        self.expect(")")
        return found

    def program(self):
        self.expect("values")
        values = self.number(1, VALUES)
        self.expect("period")
        period = self.number(1, PERIOD)
        declarations, blocks = [], []
        while self.sees("state", "input", "decide"):
            declarations.append(self.declaration(declarations))
        while self.sees("at"):
            blocks.append(self.block())
        if self.tokens[self.at].kind != "end":
            self.refuse(2)
        return Program(values, period, declarations, blocks)

    def declaration(self, others):
        kind = self.take().text
        count = sum(it.kind != "decide" for it in others)
        name = self.name(kind != "decide" and count == VARIABLES)
        if kind != "state":
            return Declaration(kind, name, "num", None)
        self.expect(":")
        of_type = self.type()
        self.expect("=")
        return Declaration(kind, name, of_type, self.expression(0))

    def field(self, others):
        name = self.name(len(others) == FIELDS)
        self.expect(":")
        return name, self.type()

    def block(self):
        self.expect("at")
        number = self.number()
        self.expect(":", "message")
        fields = self.listed(self.field)
        self.expect("send", "when")
        when = self.expression(0)
        self.expect(":")
        sent = self.listed(lambda _: self.expression(0))
        self.expect("on", "message", ":")
        message = self.assignments()
        self.expect("end", ":")
        return Block(number, fields, when, sent, message, self.assignments())

    def assignments(self):
        found = []
        while self.sees_name():
            name = self.name()
            self.expect(":=")
            found.append((name, self.expression(0)))
            self.expect(";")
        return found

    def deepen(self, depth):
        if depth > NESTING:
            raise Refused("source 3")

    def expression(self, outer):
        if not self.sees("if"):
            return self.chain(0, outer)
        self.deepen(outer + 2)
        self.take()
        parts = [self.expression(outer + 1)]
        for word in ("then", "else"):
            self.expect(word)
            parts.append(self.expression(outer + 1))
        return Tree("if", *parts)

    def chain(self, level, outer):
        """Reads operands of a level, and groups them from the left."""
        left = self.operand(level, outer)
        while self.sees(*LEVELS[level]):
            self.deepen(outer + left.depth + 1)
            operator = self.take().text
            left = Tree(operator, left, self.operand(level, outer + 1))
            if level == COMPARISON:
                break
        return left

    def operand(self, level, outer):
        if LEVELS[level] == ("and",) and self.sees("not"):
            self.deepen(outer + 2)
            self.take()
            return Tree("not", self.operand(level, outer + 1))
        if level + 1 < len(LEVELS):
            return self.chain(level + 1, outer)
        return self.indexed(outer)

    def indexed(self, outer):
        left = self.atom(outer)
        if not self.sees("["):
            return left
        self.deepen(outer + left.depth + 1)
        self.take()
        index = self.expression(outer + 1)
        self.expect("]")
        return Tree("entry", left, index)

    def atom(self, outer):
        if self.tokens[self.at].kind == "number":
            return Tree("number", name=self.number())
        if self.sees_name():
            return Tree("name", name=self.name())
        if self.sees(*WORDS):
            return Tree(self.take().text)
        if not self.sees("(", "{", "[", *CALLS):
            self.refuse(2)
        self.deepen(outer + 2)
        opening = self.take().text
        if opening == "(":
            inner = self.expression(outer + 1)
            self.expect(")")
            return Tree("brackets", inner)
        if opening in CALLS:
            return self.call(opening, outer)
        name = self.name()
        self.expect(":")
        inner = self.expression(outer + 1)
        self.expect("}" if opening == "{" else "]")
        return Tree("set of" if opening == "{" else "row of", inner, name=name)

    def call(self, name, outer):
        self.expect("(")
        parts = [self.expression(outer + 1)]
        while len(parts) < CALLS[name]:
            self.expect(",")
            parts.append(self.expression(outer + 1))
        self.expect(")")
        return Tree(name, *parts)


# Names and types


class Checked:
    """A program whose names and types are right."""

    def __init__(self, program):
        self.values, self.period, self.blocks = program.values, program.period, program.blocks
        self.declarations = program.declarations
        self.variables = [it for it in program.declarations if it.kind != "decide"]
        self.types = {it.name: it.type for it in self.variables}
        self.inputs = [it.name for it in self.variables if it.kind == "input"]
        self.decided = [it.name for it in program.declarations if it.kind == "decide"]
        self.fields = {name for block in self.blocks for name, _ in block.fields}
        self.check()

    def places(self):
        """Yields each expression, where it stands, its block, and the type that it must have."""
        for it in self.variables:
            if it.value:
                yield it.value, "initial", None, it.type
        for block in self.blocks:
            yield block.when, "send", block, "bool"
            for tree, (_, of_type) in zip(block.sent, block.fields):
                yield tree, "send", block, of_type
            for tree in block.sent[len(block.fields) :]:
                yield tree, "send", block, None
            for part in ("message", "end"):
                for name, tree in getattr(block, part):
                    yield tree, part, block, self.types.get(name)

    def targets(self):
        yield from self.decided
        for block in self.blocks:
            yield from (name for name, _ in block.message + block.end)

    def check(self):
        """Refuses the first cause that stands, in the order in which they are told."""
        causes = (
            (2, self.has_double_name),
            (6, lambda: not self.inputs),
            (7, lambda: not self.decided),
            (8, lambda: [it.number for it in self.blocks] != [*range(1, self.period + 1)]),
            (1, lambda: self.has_name(self.is_unknown) or self.has_target(self.is_nowhere)),
            (5, lambda: self.has_name(self.is_misplaced) or self.has_target(self.is_field)),
            (4, lambda: any(len(it.sent) != len(it.fields) for it in self.blocks)),
            (3, self.has_wrong_type),
        )
        for number, stands in causes:
            if stands():
                raise Refused(f"check {number}")

    def has_double_name(self):
        lists = [[it.name for it in self.variables]]
        lists += [[name for name, _ in block.fields] for block in self.blocks]
        if any(len(set(it)) < len(it) for it in lists):
            return True
        if len(self.inputs) > 1 or len(self.decided) > 1 or self.fields & {*self.types}:
            return True
        return any(
            self.rebinds(tree, {*self.types, *dict(block.fields if block else [])})
            for tree, _, block, _ in self.places()
        )

    def rebinds(self, tree, taken):
        if tree.form in ("set of", "row of"):
            if tree.name in taken:
                return True
            taken = taken | {tree.name}
        return any(self.rebinds(it, taken) for it in tree.parts)

    def has_name(self, is_bad):
        """Whether a name or word of an expression is bad where it stands."""

        def stands(tree, bound, place, block):
            if is_bad(tree, bound, place, block):
                return True
            if tree.form in ("set of", "row of"):
                bound = bound | {tree.name}
            return any(stands(it, bound, place, block) for it in tree.parts)

        return any(stands(tree, frozenset(), *at) for tree, *at, _ in self.places())

    def has_target(self, is_bad):
        return any(is_bad(name) for name in self.targets())

    def is_field(self, name):
        return name in self.fields

    def is_nowhere(self, name):
        return name not in self.types and name not in self.fields

    def is_unknown(self, tree, bound, place, block):
        return tree.form == "name" and tree.name not in bound and self.is_nowhere(tree.name)

    def is_misplaced(self, tree, bound, place, block):
        if tree.form == "dest":
            return place != "send"
        if tree.form == "from":
            return place != "message"
        if tree.form in ("round", "phase"):
            return place == "initial"
        if tree.form != "name" or tree.name in bound:
            return False
        if tree.name in self.fields:
            return place != "message" or tree.name not in dict(block.fields)
        return place == "initial" and tree.name not in self.inputs

    def has_wrong_type(self):
        if self.types[self.decided[0]] != "set":
            return True
        return any(
            self.type_of(tree, {**self.types, **dict(block.fields if block else [])}) != of_type
            for tree, _, block, of_type in self.places()
        )

    def type_of(self, tree, names):
        """Returns an expression's type, or None where a part has a wrong one."""
        if tree.form == "name":
            return names[tree.name]
        if tree.form in ("set of", "row of"):
            names = {**names, tree.name: "num"}
        parts = tuple(self.type_of(it, names) for it in tree.parts)
        if tree.form == "brackets":
            return parts[0]
        if tree.form in ("=", "<>"):
            return "bool" if parts[0] == parts[1] and parts[0] else None
        if tree.form == "if":
            return parts[1] if parts[0] == "bool" and parts[1] == parts[2] else None
        wanted, result = SIGNATURES[tree.form]
        return result if parts == wanted else None


# Values


def value(tree, names, size):
    """Returns an expression's value: a number, a bool, a frozenset or a tuple of numbers."""
    form = tree.form
    if form == "name":
        return names[tree.name]
    if form == "number":
        return tree.name
    if form in ("set of", "row of"):
        at = ((it, value(tree.parts[0], {**names, tree.name: it}, size)) for it in range(size))
        return tuple(it for _, it in at) if form == "row of" else frozenset(v for v, it in at if it)
    if form == "if":
        return value(tree.parts[1 if value(tree.parts[0], names, size) else 2], names, size)
    parts = [value(it, names, size) for it in tree.parts]
    if form in OPERATIONS:
        return OPERATIONS[form](*parts)
    if form == "single":
        return frozenset(it for it in parts if it < size)
    if form == "least":
        return min(parts[0], default=size)
    if form == "entry":
        return parts[0][parts[1]] if parts[1] < size else 0
    if form == "all":
        return frozenset(range(size))
    if form == "zero":
        return (0,) * size
    return names[form]


OPERATIONS = {
    "brackets": lambda a: a,
    "true": lambda: True,
    "false": lambda: False,
    "empty": frozenset,
    "+": lambda a, b: min(a + b, LARGEST),
    "-": lambda a, b: max(a - b, 0),
    "div": lambda a, b: a // b if b else 0,
    "mod": lambda a, b: a % b if b else 0,
    "=": lambda a, b: a == b,
    "<>": lambda a, b: a != b,
    "<": lambda a, b: a < b,
    "<=": lambda a, b: a <= b,
    ">": lambda a, b: a > b,
    ">=": lambda a, b: a >= b,
    "and": lambda a, b: a and b,
    "or": lambda a, b: a or b,
    "not": lambda a: not a,
    "union": lambda a, b: a | b,
    "inter": lambda a, b: a & b,
    "minus": lambda a, b: a - b,
    "has": lambda a, b: b in a,
    "size": len,
}
