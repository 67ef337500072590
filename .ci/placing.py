"""Where a text is at fault, read a second time: which kinds of token could stand at a place, and
the first place at which a program breaks a rule. It goes by the parser of .ci/language.py, which
notes what it asks for, and shares nothing with the crates."""
import os
import re
import sys

sys.path.insert(0, os.path.dirname(os.path.realpath(__file__)))
import language  # noqa: E402

CALLS = '"single", "size" or "least"'
OPERATORS = {it for level in language.LEVELS for it in level}
WHOLE = {"name": "a name", "number": "a number", "end": "the end of the text"}
# The kinds in the order in which they are told.
ORDER = [
    "a name", "a number", "a type", "a word for a value", CALLS, '"or"', '"and"', '"="',
    "a comparison", '"+"', '"div"',
    *(f'"{it}"' for it in """( [ { if not has values period state input decide message send when on
    then else : := , ; ) ] } end at""".split()),
    "the end of the text",
]


class Asked(str):
    """A text that notes what it's compared with."""

    def __new__(cls, text, log):
        made = super().__new__(cls, text)
        made.log = log
        return made

    def __eq__(self, other):
        self.log.add(str(other))
        return str(self) == str(other)

    def __ne__(self, other):
        return not self == other

    __hash__ = str.__hash__


def kind_of(text):
    """Returns the kind of a word or symbol, as it's told."""
    if text in language.TYPES:
        return "a type"
    if text in language.WORDS:
        return "a word for a value"
    if text in ("single", "size", "least"):
        return CALLS
    for operators, kind in zip(language.LEVELS, ('"or"', '"and"', "a comparison", '"+"', '"div"')):
        if text in operators and text != "=":
            return kind
    return f'"{text}"'


def kinds_at(front):
    """Returns the kinds that the parser asks for behind the tokens of a text."""
    parser = language.Parser(front)
    kinds, texts = set(), set()
    last = parser.tokens.pop()
    asked = language.Token(Asked("end", kinds), Asked("", texts), last.first, last.after)
    parser.tokens.append(asked)
    try:
        parser.program()
    except language.Refused:
        pass
    found = {WHOLE[it] for it in kinds if it in WHOLE} | {kind_of(it) for it in texts}
    return [it for it in ORDER if it in found]


def fault_of(text):
    """Returns where the first token that doesn't fit, or the first bad character, begins."""
    try:
        language.Parser(text).program()
    except language.Refused as refused:
        found = re.fullmatch(r"source ([12]) at (\d+) \d+", str(refused))
        return int(found[2]) if found else None
    return None


class Placed(language.Parser):
    """Reads a program, and notes where its parts stand."""

    def __init__(self, text):
        super().__init__(text)
        self.variables, self.decides, self.fields, self.targets = [], [], [], []
        self.sites, self.counts, self.numbers = [], [], []
        self.own, self.begin = [], None

    def here(self):
        return self.tokens[self.at]

    def declaration(self, others):
        name = self.tokens[self.at + 1]
        made = super().declaration(others)
        if made.kind == "decide":
            self.decides.append(name)
        else:
            self.variables.append((name, made))
            if made.value:
                self.sites.append((made.value, "initial", [], made.type, None))
        return made

    def field(self, others):
        name = self.here()
        made = super().field(others)
        self.own.append((name, made[1]))
        return made

    def block(self):
        self.begin = self.begin or self.here()
        self.numbers.append(self.tokens[self.at + 1])
        self.expect("at")
        self.number()
        self.expect(":", "message")
        self.own = own = []
        self.listed(self.field)
        self.fields.append(own)
        self.expect("send", "when")
        self.sites.append((self.expression(0), "send", own, "bool", None))
        self.expect(":")
        first = self.here().first
        sent = self.listed(lambda _: self.expression(0))
        self.counts.append((first, self.tokens[self.at - 1].after, len(sent), len(own)))
        for place, tree in enumerate(sent):
            name, wanted = own[place] if place < len(own) else (None, None)
            self.sites.append((tree, "send", own, wanted, name))
        self.expect("on", "message", ":")
        self.assigned("message", own)
        self.expect("end", ":")
        self.assigned("end", own)

    def assigned(self, part, own):
        while self.sees_name():
            target = self.here()
            self.name()
            self.expect(":=")
            self.targets.append(target)
            declared = {name.text: (it.type, name) for name, it in reversed(self.variables)}
            wanted = declared.get(target.text, (None, None))
            self.sites.append((self.expression(0), part, own, *wanted))
            self.expect(";")

    def spanned(self, read, *arguments):
        """Reads a form, and notes where it stands if that isn't from its first to its last part."""
        at = self.at
        tree = read(*arguments)
        if not hasattr(tree, "span") and tree.form not in OPERATORS:
            tree.span = self.tokens[at].first, self.tokens[self.at - 1].after
            tree.binder = self.tokens[at + 1]
        return tree

    def expression(self, outer):
        return self.spanned(super().expression, outer)

    def operand(self, level, outer):
        return self.spanned(super().operand, level, outer)

    def indexed(self, outer):
        return self.spanned(super().indexed, outer)

    def atom(self, outer):
        return self.spanned(super().atom, outer)


def span(tree):
    """Returns where an expression stands."""
    return getattr(tree, "span", None) or (span(tree.parts[0])[0], span(tree.parts[-1])[1])


def bare(tree):
    """Returns an expression without the brackets round it."""
    return bare(tree.parts[0]) if tree.form == "brackets" else tree


# What is said of an operand of a wrong type, by the form, the type that it wants and the other.
ADVICE = {
    ("+", "num", "set"): 'sets are joined by "union"',
    ("-", "num", "set"): 'sets are subtracted by "minus"',
    ("has", "set", "num"): "has(s, e): the set comes first",
    ("entry", "num", "set"): "r[e] is the entry of one value",
    **{(it, "set", "num"): "the set of one value is single(e)"
       for it in ("union", "inter", "minus")},
}


class Faults:
    """The places at which a program is at fault, by the number of the cause."""

    def __init__(self, text):
        self.placed = placed = Placed(text)
        self.program, self.end, self.found = placed.program(), placed.tokens[-2].after, []
        self.types = {name.text: it.type for name, it in reversed(placed.variables)}
        self.inputs = [name for name, it in placed.variables if it.kind == "input"]
        self.all_fields = {name.text for own in placed.fields for name, _ in own}

    def note(self, first, after, words="", declared=None):
        self.found.append((first, after, words, declared))

    def first(self):
        """Returns the first place of the first cause, or None."""
        causes = (self.doubles, self.no_input, self.no_decision, self.rounds, self.unknown,
                  self.misplaced, self.lengths, self.wrong_types)
        for cause in causes:
            cause()
            if self.found:
                return min(self.found, key=lambda it: it[0])
        return None

    def again(self, names, words):
        for place, name in enumerate(names):
            if name.text in {it.text for it in names[:place]}:
                self.note(name.first, name.after, words)

    def doubles(self):
        self.again([name for name, _ in self.placed.variables], "declared twice")
        for name in [*self.inputs[1:], *self.placed.decides[1:]]:
            self.note(name.first, name.after)
        for own in self.placed.fields:
            self.again([name for name, _ in own], "declared twice")
            for name, _ in own:
                if name.text in self.types:
                    self.note(name.first, name.after, "name of a variable")
        for tree, _, own, *_ in self.placed.sites:
            self.rebound(tree, {*self.types, *(name.text for name, _ in own)})

    def rebound(self, tree, taken):
        if tree.form in ("set of", "row of"):
            if tree.name in taken:
                self.note(tree.binder.first, tree.binder.after, "in use here already")
            taken = taken | {tree.name}
        for part in tree.parts:
            self.rebound(part, taken)

    def declarations_end(self):
        begin = self.placed.begin
        return begin.first if begin else self.end

    def no_input(self):
        if not self.inputs:
            self.note(self.declarations_end(), self.declarations_end(), "input NAME")

    def no_decision(self):
        if not self.placed.decides:
            self.note(self.declarations_end(), self.declarations_end(), "decide NAME")

    def rounds(self):
        numbers = self.placed.numbers
        for wanted, number in enumerate(numbers, 1):
            if int(number.text) != wanted or wanted > self.program.period:
                self.note(number.first, number.after)
        if len(numbers) < self.program.period:
            self.note(self.end, self.end, f'"at {len(numbers) + 1}:" has to stand behind this')

    def names(self, tree, bound=()):
        """Yields the names and words of an expression, and what is bound there."""
        yield tree, bound
        if tree.form in ("set of", "row of"):
            bound = (*bound, tree.name)
        for part in tree.parts:
            yield from self.names(part, bound)

    def unknown(self):
        known = {*self.types, *self.all_fields}
        variables = [it.text for it, _ in self.placed.variables]
        for it in [*self.placed.targets, *self.placed.decides]:
            if it.text not in known:
                self.note(it.first, it.after, self.asked(it.text, variables))
        for site, place, own, *_ in self.placed.sites:
            for tree, bound in self.names(site):
                if tree.form == "name" and tree.name not in {*bound, *known}:
                    first = span(tree)[0]
                    meant = self.readable(place, own, bound)
                    self.note(first, first + len(tree.name), self.asked(tree.name, meant))

    def readable(self, place, own, bound):
        """Returns the names and words that may stand in an expression there."""
        initial = place == "initial"
        names = [it for it, of in self.placed.variables if not initial or of.kind == "input"]
        names += [name for name, _ in own] if place == "message" else []
        words = "true false empty all zero me n t".split() + ["round", "phase"] * (not initial)
        words += {"send": ["dest"], "message": ["from"]}.get(place, [])
        return [*(it.text for it in names), *bound, *words]

    def asked(self, name, meant):
        near = nearest(name, meant)
        return f'isn\'t declared; is it "{near}"?' if near else "isn't declared\n"

    def misplaced(self):
        for it in [*self.placed.targets, *self.placed.decides]:
            if it.text in self.all_fields:
                self.note(it.first, it.after, "set and decided")
        for site, place, own, *_ in self.placed.sites:
            for tree, bound in self.names(site):
                if self.is_misplaced(tree, bound, place, {name.text for name, _ in own}):
                    self.note(*span(tree))

    def is_misplaced(self, tree, bound, place, own):
        if tree.form in ("dest", "from"):
            return place != {"dest": "send", "from": "message"}[tree.form]
        if tree.form in ("round", "phase"):
            return place == "initial"
        if tree.form != "name" or tree.name in bound:
            return False
        if tree.name in self.all_fields:
            return place != "message" or tree.name not in own
        return place == "initial" and tree.name != self.inputs[0].text

    def lengths(self):
        for first, after, sent, fields in self.placed.counts:
            if sent != fields:
                counts = f"the message has {fields} field{'s' * (fields != 1)}, and {sent} value"
                self.note(first, after, counts + (" is sent\n" if sent == 1 else "s are sent\n"))

    def wrong_types(self):
        variables = {name.text: (it.type, name) for name, it in reversed(self.placed.variables)}
        for name in self.placed.decides:
            found, declared = variables[name.text]
            if found != "set":
                self.note(name.first, name.after, f"a set, and this is a {found}\n", declared)
        for tree, place, own, wanted, wanting in self.placed.sites:
            fields = {name.text: (of, name) for name, of in own} if place == "message" else {}
            names = {**variables, **fields}
            self.want(tree, self.type_of(tree, names), wanted, names, wanting=wanting)

    def want(self, tree, found, wanted, names, form="", wanting=None):
        if found and wanted and found != wanted:
            advice = ADVICE.get((form, wanted, found))
            told = f"; {advice}\n" if advice else "\n"
            declared = names[bare(tree).name][1] if bare(tree).form == "name" else wanting
            self.note(*span(tree), f"a {wanted}, and this is a {found}{told}", declared)
        return found == wanted

    def type_of(self, tree, names):
        if tree.form == "name":
            return names[tree.name][0]
        if tree.form in ("set of", "row of"):
            names = {**names, tree.name: ("num", tree.binder)}
        parts = [self.type_of(it, names) for it in tree.parts]
        if tree.form == "brackets":
            return parts[0]
        if tree.form in ("=", "<>"):
            wanted, result = [parts[0], parts[0]], "bool"
        elif tree.form == "if":
            wanted, result = ["bool", parts[1], parts[1]], parts[1]
        else:
            wanted, result = language.SIGNATURES[tree.form]
        fits = [self.want(*it, names, tree.form) for it in zip(tree.parts, parts, wanted)]
        return result if all(fits) and None not in parts else None


def nearest(name, others):
    """Returns the first of the nearest names, if it's near enough, or None."""
    near = min(others, key=lambda it: edits(name, it), default=None)
    return near if near and edits(name, near) <= (len(name) + 1) // 3 else None


def edits(name, other):
    """Returns how many letters are to be changed, put in or left out; case doesn't count."""
    name, other = name.lower(), other.lower()
    row = [*range(len(other) + 1)]
    for count, letter in enumerate(name, 1):
        last, row[0] = row[0], count
        for place, it in enumerate(other, 1):
            nearest = min(row[place] + 1, row[place - 1] + 1, last + (letter != it))
            last, row[place] = row[place], nearest
    return row[-1]
