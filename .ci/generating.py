"""Random programs, schedules and commands for .ci/long, with and without faults.

Every choice comes from one `random.Random`, so a seed and a number make the same case again.
"""
import collections
import re

PIECES = re.compile(r"[A-Za-z_][A-Za-z0-9_]*|[0-9]+|:=|<>|<=|>=|[^ ]")
NAMES = "a b x seen votes _ v9 Q an_identifier_of_32_characters_x valuess".split()
FIELD_NAMES = ["f", "g", "s", "list", "p_1", "_f", "h", "k2"]
BOUND_NAMES = ["v", "w", "u", "i_"]
STRANGE_NAMES = ["nowhere", "f", "x", "v", "a_name_of_33_characters_012345678"]
ODD = [*"$.!*/@%\"é€😀", "\0", "\f", "\v", "\ufeff", "\u00a0"]
ODD_BYTES = [b"\xff", b"\x80", b"\xc3", b"\xe2\x82", b"\xed\xa0\x80", b"\xc0", b"\xf4\x90\x80\x80"]
NUMBERS = """0 1 2 7 8 9 15 16 17 63 64 65 1024 1025 4096 4097 4294967295 4294967296 00 007
00000000000000000000000003 18446744073709551616 99999999999999999999999999""".split()
SEPARATORS = [" "] * 12 + ["\n", "\n  ", "\t", "\r\n", "  ", " # a remark\n", "#é ( € $\n", "\r"]
# For each type the forms, each with its level of tightness, and types and levels of its operands.
OR, AND, NOT, COMPARED, SUM, PRODUCT, INDEXED, ATOM = range(1, 9)
WRONG_SOURCES = """@gather:0 @gather:65 @other:2 @dls1:99999999999 @if:2 @ @gather @gather: 
@gather:+1 @9:2 @é:2 @dls1:2:3 @_:64""".split()
WRONG_LISTS = ["0,0", "", ",", "0,", "00", "4294967295", "4294967296", "x", "0,,1", "-1", "0, 1"]
FORMS = {
    "num": [
        *[(f"{{}} {it} {{}}", SUM, [("num", SUM), ("num", PRODUCT)]) for it in "+-"],
        ("{} div {}", PRODUCT, [("num", PRODUCT), ("num", INDEXED)]),
        ("{} mod {}", PRODUCT, [("num", PRODUCT), ("num", INDEXED)]),
        ("size ( {} )", ATOM, [("set", 0)]),
        ("least ( {} )", ATOM, [("set", 0)]),
        ("{} [ {} ]", INDEXED, [("row", ATOM), ("num", 0)]),
    ],
    "bool": [
        *[(f"{{}} {it} {{}}", COMPARED, [("num", SUM)] * 2) for it in ("<", "<=", ">", ">=", "=")],
        *[("{} = {}", COMPARED, [(it, SUM)] * 2) for it in ("set", "bool", "row")],
        *[("{} <> {}", COMPARED, [(it, SUM)] * 2) for it in ("set", "bool", "row", "num")],
        ("{} and {}", AND, [("bool", AND), ("bool", NOT)]),
        ("{} or {}", OR, [("bool", OR), ("bool", AND)]),
        ("not {}", NOT, [("bool", NOT)]),
        ("has ( {} , {} )", ATOM, [("set", 0), ("num", 0)]),
    ],
    "set": [
        ("{} union {}", SUM, [("set", SUM), ("set", PRODUCT)]),
        ("{} minus {}", SUM, [("set", SUM), ("set", PRODUCT)]),
        ("{} inter {}", PRODUCT, [("set", PRODUCT), ("set", INDEXED)]),
        ("single ( {} )", ATOM, [("num", 0)]),
        ("single ( {} )", ATOM, [("num", 0)]),
    ],
    "row": [],
}
CONSTANTS = {
    "num": ["me", "n", "t"],
    "bool": ["true", "false"],
    "set": ["empty", "all"],
    "row": ["zero"],
}

Given = collections.namedtuple("Given", "words files")  # a content of None: there is no such file


class Generator:
    """Makes one case."""

    def __init__(self, random):
        self.random, self.slip = random, 0.0

    def often(self, chance):
        return self.random.random() < chance

    def one(self, items):
        return self.random.choice(items)

    # Programs

    def expression(self, of_type, depth, names, level=0):
        """Writes an expression that may stand where the level asks for one so tight."""
        if self.often(self.slip):
            of_type = self.one(list(FORMS))
        text, own = self.form(of_type, depth, names)
        return f"( {text} )" if own < level or self.often(0.04) else text

    def form(self, of_type, depth, names):
        if depth <= 0 or self.often(0.2):
            return self.leaf(of_type, names), ATOM
        if self.often(0.1):
            parts = [self.expression(it, depth - 1, names) for it in ("bool", of_type, of_type)]
            return "if {} then {} else {}".format(*parts), 0
        if of_type in ("set", "row") and (of_type == "row" or self.often(0.3)):
            return self.comprehension(of_type, depth, names), ATOM
        text, own, operands = self.one(FORMS[of_type])
        return text.format(*(self.expression(it, depth - 1, names, at) for it, at in operands)), own

    def comprehension(self, of_type, depth, names):
        free = [it for it in BOUND_NAMES if it not in names]
        if not free or self.values ** (1 + len(BOUND_NAMES) - len(free)) > 5000:
            return self.leaf(of_type, names)
        name = self.one(BOUND_NAMES if self.often(self.slip) else free)
        inner, names = "bool" if of_type == "set" else "num", {**names, name: "num"}
        text = f"{name} : {self.expression(inner, depth - 1, names)}"
        return f"{{ {text} }}" if of_type == "set" else f"[ {text} ]"

    def leaf(self, of_type, names):
        if self.often(self.slip):
            return self.one([*STRANGE_NAMES, "dest", "from", "round", *FIELD_NAMES])
        found = [name for name, it in names.items() if it == of_type]
        if found and self.often(0.7):
            return self.one(found)
        if of_type == "num" and self.often(0.6):
            return self.one(NUMBERS[:18]) if self.often(0.1) else str(self.random.randrange(5))
        return self.one(CONSTANTS[of_type])

    def type(self):
        return self.one(["num", "bool", "set", "set", "row"])

    def program(self):
        """Writes a program as tokens with single blanks."""
        self.values = self.one([1, 2, 2, 3, 3, 4, 4, 5, 8, 33, 64])
        self.period = self.one([1, 1, 1, 2, 2, 3, 4, 8])
        names = self.random.sample(NAMES, self.random.randrange(1, 6))
        if self.often(0.03):
            names = [f"s{it}" for it in range(self.one([16, 16, 17]))]
        types = {it: self.type() for it in names[1:]}
        if not types or self.often(0.9):
            types["dec" if "dec" not in types else names[1]] = "set"
        decided = self.one([it for it in types if types[it] == "set"] or list(types))
        start = {names[0]: "num"}
        lines = [f"input {names[0]}", f"decide {decided}"]
        first = {it: self.expression(of, 2, start) for it, of in types.items()}
        lines += [f"state {it} : {of} = {first[it]}" for it, of in types.items()]
        if self.often(0.3):
            self.random.shuffle(lines)
        if self.often(self.slip):
            lines.append(self.one(lines))
        types[names[0]] = "num"
        blocks = [self.block(it + 1, types) for it in range(self.period)]
        if self.often(self.slip):
            self.random.shuffle(blocks)
        return f"values {self.values} period {self.period} " + " ".join(lines + blocks)

    def block(self, number, types):
        count = self.one([0, 1, 1, 2, 3])
        fields = {it: self.type() for it in self.random.sample(FIELD_NAMES, count)}
        if self.often(0.02):
            fields = {it: self.type() for it in [*FIELD_NAMES, "ninth"][: self.one([8, 8, 9])]}
        depth = self.one([1, 2, 3, 3, 4])
        common = {**types, "round": "num", "phase": "num"}
        sending, hearing = {**common, "dest": "num"}, {**common, "from": "num", **fields}
        listed = " , ".join(f"{it} : {of}" for it, of in fields.items())
        when = "true" if self.often(0.4) else self.expression("bool", depth, sending)
        sent = [self.expression(it, depth, sending) for it in fields.values()]
        if self.often(self.slip):
            sent.append("true")
        return (
            f"at {number} : message ( {listed} ) send when {when} : ( {' , '.join(sent)} ) "
            f"on message : {self.assignments(types, hearing, depth)} "
            f"end : {self.assignments(types, common, depth)}"
        )

    def assignments(self, types, names, depth):
        targets = [self.one(list(types)) for _ in range(self.random.randrange(4))]
        if targets and self.often(self.slip):
            targets[0] = self.one(STRANGE_NAMES + FIELD_NAMES)
        values = [self.expression(types.get(it, "num"), depth, names) for it in targets]
        return " ".join(f"{it} := {value} ;" for it, value in zip(targets, values))

    def source(self):
        """Returns the bytes of a source, in about half of the cases with a fault."""
        self.slip = self.one([0, 0, 0, 0.01, 0.05])
        pieces = PIECES.findall(self.program())
        kinds = ["token"] * 4 + ["deep"] * 3 + ["odd", "bytes", "cut", "long", "noise"]
        kind = self.one(kinds) if self.often(0.3) else ""
        if kind == "token":
            for _ in range(self.one([1, 1, 2])):
                self.change_token(pieces)
        elif kind == "deep":
            self.deepen(pieces)
        text = self.spaced(pieces)
        if kind == "odd":
            text = self.put(text, self.one(ODD))
        content = text.encode()
        if kind == "bytes":
            content = self.put(content, self.one(ODD_BYTES))
        elif kind == "cut":
            content = content[: self.random.randrange(len(content) + 1)]
        elif kind == "long":
            content = self.padded(content, 65536, b"\n#")
        elif kind == "noise":
            content = bytes(self.random.randrange(256) for _ in range(self.random.randrange(40)))
        return content

    def put(self, text, part):
        at = self.random.randrange(len(text) + 1)
        return text[:at] + part + text[at:]

    def padded(self, content, limit, opening):
        """Makes a text as long as its limit, or some bytes more or less, by a comment."""
        wanted = limit + self.one([-1, 0, 0, 1, 2, 1000])
        filling = self.one([b"x", b" ", "é".encode(), b"\xff"] if self.often(0.5) else [b"x"])
        room = max(0, wanted - len(content) - len(opening))
        return content + opening + (filling * room)[:room]

    def change_token(self, pieces):
        at = self.random.randrange(len(pieces))
        kind = self.one(["drop", "double", "swap", "other", "other", "number", "name"])
        numbers = [it for it, text in enumerate(pieces) if text.isdigit()]
        if kind == "drop":
            del pieces[at]
        elif kind == "double":
            pieces.insert(at, pieces[at])
        elif kind == "swap":
            other = self.random.randrange(len(pieces))
            pieces[at], pieces[other] = pieces[other], pieces[at]
        elif kind == "number":
            pieces[self.one(numbers or [at])] = self.one(NUMBERS)
        elif kind == "name":
            pieces[at] = self.one(STRANGE_NAMES + NAMES)
        else:
            pieces[at] = self.one([*pieces, "if", "not", "(", "]", "{", ":=", "<>", "values", "at"])

    def deepen(self, pieces):
        """Wraps one token of an expression so often that it's about as deep as it may be."""
        wanted = ("true", "false", "n", "me", "empty")
        places = [it for it, text in enumerate(pieces) if text in wanted]
        if not places:
            return
        at, count = self.one(places), self.random.randrange(26, 36)
        text = pieces[at]
        operator = "or" if text in ("true", "false") else "union" if text == "empty" else "+"
        wrapped = [
            ["("] * count + [text] + [")"] * count,
            [text] + [operator, text] * count,
            [text, operator, "("] * count + [text] + [")"] * count,
        ]
        if operator == "or":
            wrapped.append(["not"] * count + [text])
            wrapped.append(["if", text, "then", text, "else"] * count + [text])
        if operator == "+":
            wrapped.append(["zero", "["] * count + [text] + ["]"] * count)
        pieces[at : at + 1] = self.one(wrapped)

    def spaced(self, pieces):
        """Joins tokens by blanks, line ends and comments, or by nothing where they stay apart."""
        parts, before = [], ""
        for piece in pieces:
            is_word = re.match(r"[A-Za-z0-9_]", piece) and re.match(r"[A-Za-z0-9_]", before[-1:])
            if is_word or self.often(0.7):
                parts.append(self.one(SEPARATORS))
            parts.append(piece)
            before = piece
        return "".join(parts) + self.one(["", "\n", " ", "\r\n", "# the end"])

    # Schedules

    def setup(self, values):
        """Chooses the numbers of a header."""
        nodes = self.one([1, 2, 2, 3, 3, 4, 5, 7, 16])
        rounds = self.one([1, 2, 3, 4, 5, 6, 8, 40, 4096])
        delta = self.one([1, 1, 1, 2, 2, 3, None, None, 7, 1024])
        inputs = [self.random.randrange(values) for _ in range(nodes)]
        return nodes, self.one([0, 0, 0, 1, 1, 2, 15]), inputs, rounds, delta

    def header(self, nodes, faults, inputs, rounds, delta):
        plan = "plan growing" if delta is None else f"plan known {delta}"
        listed = " ".join(map(str, inputs))
        return [f"nodes {nodes}", f"faults {faults}", f"inputs {listed}", f"rounds {rounds}", plan]

    def events(self, nodes, rounds, delta, count):
        """Writes steps and what the network does, each node at its own pace."""
        taken, lines, flight = [0] * nodes, [], []
        pace = [self.one([1, 1, 1, 3, 9, 0]) for _ in range(nodes)]
        pace[self.random.randrange(nodes)] = 2
        chances = self.one([(0.5, 0.02), (0.4, 0.1), (0.7, 0.05), (0.3, 0.02), (0.25, 0)])
        is_lockstep, oldest = self.often(0.4), self.one([0, 0.5, 1])
        at = 0
        while len(lines) < count:
            if flight and not self.often(chances[0]):
                lines.append(self.network_event(flight, oldest))
            elif self.often(chances[1]):
                lines.append(self.useless_event(nodes, rounds))
            else:
                node = at % nodes if is_lockstep else self.random.choices(range(nodes), pace)[0]
                at += 1
                sent = self.slot(taken[node], nodes, rounds, delta)
                if sent:
                    flight.append((node, sent[1], sent[0], 0))
                taken[node] += 1
                lines.append(f"step {node}")
        return lines

    def bursts(self, nodes, rounds, delta):
        """Writes events in which one node after the other takes many steps at once, so that
        messages come rounds too early and too late."""
        taken, lines, flight = [0] * nodes, [], []
        for _ in range(self.random.randrange(4, 16)):
            node, is_calm = self.random.randrange(nodes), self.often(0.3)
            for _ in range(self.random.randrange(1, 5 * (nodes + 2))):
                sent = self.slot(taken[node], nodes, rounds, delta)
                flight += [(node, sent[1], sent[0], 0)] if sent else []
                taken[node] += 1
                lines.append(f"step {node}")
                if flight and not is_calm and self.often(0.3):
                    lines.append(self.network_event(flight, 0.2))
            for _ in range(self.random.randrange(1 + len(flight))):
                lines.append(self.network_event(flight, 0.2) if flight else "step 0")
        return lines

    def slot(self, step, nodes, rounds, delta):
        """Returns the round and destination of a send step, or None where it's none."""
        for number in range(1, rounds + 1):
            length = nodes + (number if delta is None else delta)
            if step < length:
                return (number, step) if step < nodes else None
            step -= length
        return None

    def network_event(self, flight, oldest):
        place = 0 if self.often(oldest) else self.random.randrange(len(flight))
        sender, to, number, copy = flight[place]
        kind = self.one(["release"] * 8 + ["drop", "copy", "copy"])
        if kind == "copy":
            copy = self.random.randrange(1, 4)
            flight.append((sender, to, number, copy))
        elif self.often(0.06):
            copy = self.random.randrange(4)  # (one that needn't have been made)
        elif not self.often(0.05):
            flight.pop(place)
        tail = f" {copy}" if copy or self.often(0.1) else ""
        return f"{kind} {sender} {to} {number}{tail}"

    def useless_event(self, nodes, rounds):
        kind = self.one(["release", "drop", "copy"])
        numbers = [self.random.randrange(nodes), self.random.randrange(nodes)]
        numbers.append(self.random.randrange(1, min(rounds, 6) + 1))
        if kind == "copy" or self.often(0.3):
            numbers.append(self.random.randrange(kind == "copy", 4))
        return f"{kind} {' '.join(map(str, numbers))}"

    def schedule(self, values):
        """Returns the bytes of a schedule and its count of nodes."""
        nodes, faults, inputs, rounds, delta = self.setup(values)
        head = self.header(nodes, faults, inputs, rounds, delta)
        count = self.random.randrange(self.one([10, 100, 200, 400, 900]))
        lines = head + self.events(nodes, rounds, delta, count)
        kind = self.one(["line", "line", "number", "event", "bytes", "cut", "comments", "plain"])
        if self.often(0.65):
            kind = ""
        if kind in ("line", "number"):
            for _ in range(self.one([1, 1, 2])):
                self.change_line(lines, len(head), kind)
        elif kind == "event":
            at = self.random.randrange(len(head), len(lines) + 1)
            lines.insert(at, self.wrong_event(nodes, rounds))
        elif kind == "comments":
            for _ in range(5):
                at = self.random.randrange(len(lines) + 1)
                lines.insert(at, self.one(["", "#", "# é", "#step 0", "# a\0"]))
        ending = self.one(["\n", "\n", "\n", "\r\n"])
        last = self.one(["\n", "\n", "", "\r\n", "\r" * (kind == "cut")])
        content = (ending.join(lines) + last).encode()
        if kind == "bytes":
            content = self.put(content, self.one(ODD_BYTES + [it.encode() for it in ODD]))
        elif kind == "cut":
            content = content[: self.random.randrange(len(content) + 1)]
        elif self.often(0.0002):
            content = self.padded(content, 16777216, b"#")
        return content, nodes

    def short_setup(self, values):
        """Chooses the numbers of a run that ends soon."""
        nodes, rounds = self.one([1, 2, 3, 3, 4, 5]), self.one([1, 1, 2, 3, 4, 5])
        inputs = [self.random.randrange(values) for _ in range(nodes)]
        return nodes, self.one([0, 0, 0, 1, 1, 2]), inputs, rounds, self.one([1, 1, 2, 3, None])

    def long_setup(self, values):
        """Chooses the numbers of a run of few nodes and some more rounds."""
        nodes, rounds = self.one([1, 2, 2, 3]), self.one([5, 6, 8, 9])
        inputs = [self.random.randrange(values) for _ in range(nodes)]
        return nodes, self.one([0, 1]), inputs, rounds, self.one([1, 1, 2, None])

    def spoiled(self, lines, head, others):
        """Returns the bytes of a text's lines, now and then with a fault."""
        kind = self.one(["line", "line", "number", "other", "bytes", "cut", "comments"])
        kind = kind if self.often(0.35) else ""
        if kind in ("line", "number"):
            self.change_line(lines, min(head, len(lines)), kind)
        elif kind == "other":
            lines.insert(self.random.randrange(len(lines) + 1), self.one(others))
        elif kind == "comments":
            for _ in range(3):
                at = self.random.randrange(len(lines) + 1)
                lines.insert(at, self.one(["", "#", "# é", "#stop 0 0", "# a\0"]))
        ending = self.one(["\n", "\n", "\n", "\r\n"])
        content = (ending.join(lines) + self.one(["\n", "\n", "", "\r\n"])).encode()
        if kind == "bytes":
            content = self.put(content, self.one(ODD_BYTES + [it.encode() for it in ODD]))
        elif kind == "cut":
            content = content[: self.random.randrange(len(content) + 1)]
        elif self.often(0.0002):
            content = self.padded(content, 16777216, b"#")
        return content

    def short_header(self, values):
        """Returns the bytes of a header and its count of nodes."""
        setup = self.short_setup(values)
        lines = self.header(*setup)
        return self.spoiled(lines, len(lines), ["step 0", "pace free", "nodes 1"]), setup[0]

    def thread_setup(self, values):
        """Returns the bytes of a thread setup and its count of nodes."""
        setup = self.short_setup(values)
        nodes, lines = setup[0], self.header(*setup)
        lines.append(self.one(["pace free", "pace free", "pace ticks"]))
        for _ in range(self.one([0, 0, 1, 1, 2, 4])):
            node = self.one([*range(nodes)] * 5 + [nodes])
            lines.append(f"stop {node} {self.one([0, 1, 2, 3, 4, 5, 7, 11, 30, 4294967295])}")
        others = ["step 0", "pace ticks", "pace slow", "stop 0", "stop 0 0 0", "stop 0 -1", "stop"]
        return self.spoiled(lines, 6, others), nodes

    def omissions(self, nodes, rounds):
        """Returns the bytes of an omission file."""
        lines = []
        for _ in range(self.one([0, 1, 2, 3, 5, 9])):
            node = lambda: self.one([*range(nodes)] * 40 + [nodes])
            number = lambda: self.one([*range(1, rounds + 1)] * 40 + [0, rounds + 1])
            span = f"{number()}-{number()}" if self.often(0.3) else f"{number()}"
            listed = ",".join(str(node()) for _ in range(self.one([0, 1, 1, 2, 3]))) or "-"
            forms = [f"omit {node()} {span} {node()}"] * 3
            forms += [f"cut {listed} {span}", f"crash {node()} {number()} {listed}"]
            lines.append(self.one(forms))
        others = ["step 0", "omit 0 1", "omit 0 1 0 0", "cut 0", "cut - 1", "crash 0 1-2 -", "omit"]
        return self.spoiled(lines, 6, others) if lines else self.one([b"", b"\n", b"#\r\n"])

    def change_line(self, lines, head, kind):
        # (an earlier change may have taken one of the header's lines away)
        at = self.random.randrange(min(head, len(lines)) if self.often(0.5) else len(lines))
        numbers = [(it.start(), it.end()) for it in re.finditer("[0-9]+", lines[at])]
        if kind == "number" and numbers:
            first, after = self.one(numbers)
            number = self.one([*NUMBERS, "+1", "-1", "1.0", ""])
            lines[at] = lines[at][:first] + number + lines[at][after:]
            return
        change = self.one(["drop", "double", "swap", "blank", "case", "word", "odd", "none"])
        if change == "drop":
            del lines[at]
        elif change == "double":
            lines.insert(at, lines[at])
        elif change == "swap":
            other = self.random.randrange(len(lines))
            lines[at], lines[other] = lines[other], lines[at]
        elif change == "blank":
            lines[at] = self.put(lines[at], self.one([" ", "  ", "\t", "\r"]))
        elif change == "case":
            lines[at] = lines[at].upper()
        elif change == "odd":
            lines[at] = self.put(lines[at], self.one(ODD))
        elif change == "word":
            words = lines[at].split(" ")
            others = ["step", "known", "growing", "x", "1", ""]
            words[self.random.randrange(len(words))] = self.one(others)
            lines[at] = " ".join(words)
        if not lines:
            lines.append("")

    def wrong_event(self, nodes, rounds):
        """Writes an event that names what the setup hasn't."""
        node, number = self.random.randrange(nodes), self.one([1, rounds])
        return self.one(
            [
                f"step {nodes}",
                f"step {self.one(NUMBERS)}",
                f"release {nodes} {node} {number}",
                f"drop {node} {nodes} {number}",
                f"release {node} {node} 0",
                f"drop {node} {node} {rounds + 1}",
                f"release {node} {node} {number} 4",
                f"copy {node} {node} {number} 0",
                f"copy {node} {node} {number} 4",
                f"copy {node} {node} {number}",
            ]
        )

    # Commands

    def library(self):
        name = self.one(["gather", "gather", "count_votes", "dls1", "dls1"])
        self.values = self.one([1, 2, 2, 3, 4, 64])
        text = f"@{name}:{'0' * self.often(0.1)}{self.values}"
        return self.one([*WRONG_SOURCES, f"{text} "]) if self.often(0.06) else text

    def correct(self, nodes):
        listed = ",".join(str(it) for it in range(nodes) if self.often(0.6)) or "0"
        if self.often(0.15):
            return self.one([*WRONG_LISTS, str(nodes), f"{listed},{nodes}", f"{listed},0"])
        return listed

    def number(self, usual, wrong):
        return self.one(wrong) if self.often(0.06) else str(self.one(usual))

    def case(self):
        """Makes a command with its files."""
        files = {}
        if self.often(0.3):
            source = self.library()
        else:
            source, files["s.rounds"] = "s.rounds", self.source()
            if self.often(0.01):
                del files["s.rounds"]
        kinds = ["check"] + ["run"] * 4 + ["judge"] * 2 + ["threads"] * 2 + ["lockstep"]
        kinds += ["realise", "rounds", "rounds"]
        command = self.one(kinds)
        options = getattr(self, f"{command}_options")(files)
        return Given([command, *self.ordered(source, options)], files)

    def why_case(self):
        """Makes a command with `why` in front of it; half of them are runs without a fault."""
        if self.often(0.5):
            given = self.case()
            return Given(["why", *given.words], given.files)
        files = {}
        if self.often(0.5):
            self.values = self.one([2, 2, 3, 4, 64])
            source = f"@{self.one(['gather', 'count_votes'])}:{self.values}"
        else:
            source, text = "s.rounds", self.spaced(PIECES.findall(self.program()))
            files["s.rounds"] = text.encode()
        files["-"] = self.lost_messages()
        decided = ["--decided"] * self.often(0.2)
        return Given(["why", "run", source, "--schedule", "-", *decided], files)

    def lost_messages(self):
        """Returns the bytes of a schedule without a fault."""
        if self.often(0.4):
            setup = self.long_setup(self.values)
            events = self.bursts(setup[0], setup[3], setup[4])
        else:
            setup, count = self.setup(self.values), self.random.randrange(self.one([20, 100, 400]))
            events = self.events(setup[0], setup[3], setup[4], count)
        lines = self.header(*setup) + events
        for _ in range(self.one([0, 0, 1, 5])):
            lines.insert(self.random.randrange(len(lines) + 1), self.one(["", "# é", "#step 0"]))
        ending = self.one(["\n", "\n", "\r\n"])
        return (ending.join(lines) + self.one(["", "\n"])).encode()

    def check_options(self, files):
        return self.answer_format()

    def answer_format(self):
        """Writes the option of an answer's format."""
        wrong = ["", "JSON", "table", "json,text"]
        return [("--format", self.number(["text", "json"], wrong))] * self.often(0.3)

    def run_options(self, files):
        option, _ = self.file("schedule", *self.schedule(self.values), files)
        return [option] + self.report_form()

    def report_form(self):
        """Writes the options of a report."""
        options = [("--decided",)] * self.often(0.3) + [("--changed",)] * self.often(0.2)
        if self.often(0.4):
            forms = ["text", "json", "json", "table", "table", "table", "summary", "omissions"]
            options.append(("--format", self.number(forms, ["", "JSON", "csv", "tables"])))
        if self.often(0.2):
            options.append(("--by", self.number(["round", "node", "node"], ["", "rounds", "0"])))
        if self.often(0.3):
            lists = ["x", "x", "seen", "x,seen", "seen,x", "x,x"]
            options.append(("--vars", self.number(lists, ["", "x,", ",", "y", "X", "x, seen"])))
        return options

    def judge_options(self, files):
        option, nodes = self.file("schedule", *self.schedule(self.values), files)
        return [option, *self.terms(nodes), *self.answer_format()]

    def threads_options(self, files):
        option, _ = self.file("setup", *self.thread_setup(self.values), files)
        trace = "none/t.schedule" if self.often(0.02) else "t.schedule"
        if option[1] != "-" and self.often(0.02):
            trace = option[1]
        return [option, ("--trace", trace)] + [("--decided",)] * self.often(0.4)

    def lockstep_options(self, files):
        option, nodes = self.file("header", *self.short_header(self.values), files)
        options = [option, *self.terms(nodes)]
        for name in ("delays", "orders"):
            if self.often(0.5):
                numbers = [self.random.randrange(5) for _ in range(self.one([1, 2, 3, 7]))]
                listed = ",".join(map(str, numbers))
                options.append((f"--{name}", self.number([listed], WRONG_LISTS[2:])))
        if self.often(0.5):
            ticks = self.number(list(range(40)), ["", "x", "-1", "4294967296"])
            options.append(("--ticks", ticks))
        return options + (self.changes(nodes, files) if self.often(0.5) else [])

    def changes(self, nodes, files):
        """Writes the options that change a run in lockstep."""
        options, wrong = [], ["", "x", "-1", "4294967296"]
        is_wrong = self.often(0.3)
        number = lambda usual, wrong: (
            self.number(usual, wrong) if is_wrong else str(self.one(usual))
        )
        for _ in range(self.one([0, 1, 1, 3])):
            node = number(list(range(nodes)), [str(nodes), *wrong])
            options.append(("--stop", node, number(list(range(30)), wrong)))
        for _ in range(self.one([0, 1, 1, 3])):
            ends = [number(list(range(nodes)), [str(nodes), *wrong]) for _ in range(2)]
            numbers = number([1, 1, 1, 2], ["0", "9", *wrong]), number(list(range(9)), wrong)
            options.append(("--delay", *ends, *numbers))
        if self.often(0.3):
            options.append(self.file("omissions", self.omissions(nodes, 2), nodes, files)[0])
        return options

    def realise_options(self, files):
        setup = self.short_setup(self.values)
        lines = self.header(*setup)
        header = self.spoiled(lines, len(lines), ["step 0", "pace free", "nodes 1"])
        option, nodes = self.file("header", header, setup[0], files)
        other, _ = self.file("omissions", self.omissions(nodes, setup[3]), nodes, files)
        return [option, other]

    def rounds_options(self, files):
        return self.realise_options(files) + self.report_form()

    def terms(self, nodes):
        """Writes the options of what is asked of a run."""
        wrong = ["0", "1025", "", "x", "-1", "4294967296", "+1", "0001"]
        return [
            ("--correct", self.correct(nodes)),
            ("--delta", self.number([1, 1, 2, 2, 3, 5, 7, 1024], wrong)),
            ("--gst", self.number([0, 0, 0, 1, 5, 20, 4294967295], wrong[2:])),
        ]

    def file(self, option, content, nodes, files):
        """Gives the command a file, or standard input, now and then one that isn't there."""
        name = self.one([f"a.{option}", "-", "-"])
        files[name] = content
        if self.often(0.01) and name != "-":
            del files[name]
        return (f"--{option}", name), nodes

    def ordered(self, source, options):
        """Puts the words behind a command in some order, now and then with a fault."""
        parts = [(source,), *options]
        if self.often(0.3):
            self.random.shuffle(parts)
        if self.often(0.02):
            parts.append(self.one([*parts, ("more",), ("--fly",), ("--decided",), ("-x",)]))
        elif self.often(0.02):
            parts.remove(self.one(parts))
        words = []
        for part in parts:
            words += ["=".join(part)] if len(part) == 2 and self.often(0.2) else part
        return words
