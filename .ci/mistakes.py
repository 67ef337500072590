"""What is said of a token that doesn't fit where it stands, read a second time from
docs/LANGUAGE.md: what could stand there, and which common mistake was made. It goes by the kinds of
token that .ci/placing.py finds, and shares nothing with the crates."""
import os
import re
import sys

sys.path.insert(0, os.path.dirname(os.path.realpath(__file__)))
import language  # noqa: E402
import placing  # noqa: E402

BEGINS = {"a name", "a number", "a word for a value", placing.CALLS}
BEGINS |= {f'"{it}"' for it in "( [ { if not has".split()}
GOES_ON = {"a comparison", *(f'"{it}"' for it in "or and = + div [".split())}


def previous(front):
    """Returns where a place is, by the token before it."""
    found = language.tokens(front)[:-1]
    if not found:
        return "at the beginning"
    last = found[-1]
    is_name = last.kind == "name" and last.text not in language.KEYWORDS
    if len(last.text) > 32:
        return "after a name" if is_name else "after a number"
    return f"after {last.text}" if last.kind == "number" else f'after "{last.text}"'


def sentence(front):
    """Returns what is said of what could stand behind a text."""
    kinds, told = placing.kinds_at(front), []
    if "a word for a value" in kinds:
        told.append("an expression" if '"if"' in kinds else "an operand")
        kinds = [it for it in kinds if it not in BEGINS]
    if '"+"' in kinds:
        told.append("an operator")
        kinds = [it for it in kinds if it not in GOES_ON]
    told += kinds
    if not told:
        return f"this can't stand here {previous(front)}"
    if len(told) == 1:
        return f"{previous(front)} there has to be {told[0]}"
    return f"{previous(front)} there can be {', '.join(told[:-1])} or {told[-1]}"


class Mistake:
    """What was written at a place, for the common mistakes. Of the texts `front` and `rest` each
    token is separated by a blank from the next, and `'` stands before a name, `?` before a bad
    character; `rest` is empty at the end of the text."""

    def __init__(self, text, at):
        self.kinds = set(placing.kinds_at(text[:at]))
        self.front = " ".join(map(self.spelt, language.tokens(text[:at])[:-1]))
        self.raw = text[at:].decode()
        self.is_comment = re.match("//|/[*]|--", self.raw) is not None
        self.is_comment |= text[:at].endswith(b"-") and self.raw.startswith("-")
        try:
            ahead = language.tokens(text[at:])[:-1]
        except language.Refused as refused:
            ahead = language.tokens(text[at : at + int(str(refused).split()[3])])[:-1]
            self.rest = "?" + self.raw[:2]
        else:
            self.rest = ""
        if ahead:
            self.rest = " ".join(map(self.spelt, ahead))

    @staticmethod
    def spelt(token):
        is_name = token.kind == "name" and token.text not in language.KEYWORDS
        return "'" + token.text if is_name else token.text

    def can(self, *kinds):
        return any(it in self.kinds or f'"{it}"' in self.kinds for it in kinds)

    def must(self, kind):
        return self.kinds in ({kind}, {f'"{kind}"'})

    def is_behind(self, pattern):
        return re.search(f"(^| )({pattern})$", self.front) is not None

    def sees(self, pattern):
        return re.match(f"({pattern})( |$)", self.rest) is not None

    def in_list(self):
        """Whether an assignment could begin here."""
        return self.can("a name") and self.can("end", "at")

    def hint(self):
        """Returns what is said of the mistake, or None."""
        if self.is_comment:
            return "a comment begins with #"
        parts = (self.character, self.brackets, self.expression, self.misspelt, self.declaration,
                 self.block, self.assignment)
        return next((it for it in (part() for part in parts) if it), None) or None

    def character(self):
        if not self.rest.startswith("?"):
            return None
        if self.rest[1] == "|" and self.is_behind(r"{ '\w+"):
            return "a set is written {v : CONDITION}"
        if self.rest[1] == "|" and self.is_behind(r"\[ '\w+") and self.must(":"):
            return "a row is written [v : NUMBER], that of zeros is zero"
        if self.rest[1] == "." and re.fullmatch(r"values \d+", self.front):
            return '"values 4" are the values 0 to 3'
        signs = {
            "*": "there is no product; for 2 * a write a + a",
            "/": 'a quotient is written "div", as in n div 2',
            "%": 'a remainder is written "mod", as in round mod 2',
            "!=": '"different" is written <>, as in a <> 1',
            "!": '"not" is written as a word',
            "&": '"and" is written as a word',
            "|": '"or" is written as a word',
        }
        other = "no word of the language begins with this character"
        return signs.get(self.rest[1:]) or signs.get(self.rest[1], other)

    def brackets(self):
        if self.is_behind(r"{( '\w+)?"):
            if self.is_behind("{") and self.sees("}"):
                return "the set of nothing is written empty"
            if self.sees(r"(\S+ )?,"):
                return "a set of two values is written single(a) union single(b)"
            return "a set is written {v : CONDITION}, that of one value is single(e)"
        is_row = self.is_behind(r"\[") and self.must("a name")
        if is_row or self.is_behind(r"\[ '\w+") and self.must(":"):
            return "a row is written [v : NUMBER], that of zeros is zero"
        if self.is_behind("single|size|least|has") and self.can("("):
            return "operands stand in ( and ): size(s), least(s), single(e), has(s, e)"
        return None

    def expression(self):
        ends = self.sees(r"[])},;:]|state|input|decide|at|end") or not self.rest
        if self.can("else") and ends:
            return 'an "if" has both branches: if c then a else b'
        if self.sees("=") and self.is_behind("="):
            return "a comparison has one =, as in a = 1"
        if self.sees("=") and self.can(":="):
            return "an assignment is written with :=, as in a := m;"
        if self.sees("=|<>|<|<=|>|>=") and self.can("+"):
            return "a comparison has two sides: for a < b < c write a < b and b < c"
        if self.sees(r"\+|-|union|minus") and self.can(":="):
            return "the new value is written as a whole: a := a + 1;"
        if self.sees("-") and self.can("a word for a value"):
            return "there are no numbers below 0; a - b stops at 0"
        if self.sees(r"\(") and self.can("+") and self.is_behind(r"'\w+"):
            return "only single, size, least and has are called"
        if self.sees(r"\[") and self.can(":="):
            return "a row is assigned as a whole: r := [v : if v = m then 1 else r[v]];"
        if self.sees("'in") and self.can("+"):
            return '"is e in s" is written has(s, e)'
        if self.sees("'elif") and self.can("else"):
            return '"elif" is written else if'
        if self.sees("'to|-") and re.fullmatch(r"values \d+", self.front):
            return '"values 4" are the values 0 to 3'
        return None

    def misspelt(self):
        if not self.rest.startswith("'") or (self.can(";") and self.sees(r"'\w+ :=")):
            return None
        name = self.rest.split()[0][1:]
        # The order in which words that are equally near are told.
        words = """values period state input decide at message send when on end then else num bool
            set row or and union minus div mod inter""".split()
        near = placing.nearest(name, [it for it in words if placing.kind_of(it) in self.kinds])
        return near and f'is it "{near}"?'

    def declaration(self):
        if self.can("a type"):
            return "a type is num, bool, set or row"
        if self.must("=") and self.sees(":="):
            return "a first value is written with =: state a: num = 0"
        if self.must("=") and (self.sees(";|state|input|decide|at") or not self.rest):
            return "a variable has a first value: state a: num = 0"
        return None

    def block(self):
        if self.must(":") and self.is_behind(r"[(,] '\w+"):
            return "a field has a type: message (s: set)"
        if self.must("(") and self.is_behind(":"):
            return "the values that are sent stand in ( and ): send when c: (a)"
        if self.sees(":") and self.can(":="):
            return 'an assignment is written with :=, and a block\'s last part is "end:"'
        if self.sees("round") and self.can("at"):
            return 'a block begins with "at", as in at 1:'
        if self.sees(";") and (self.can("state", "send", "on") or self.in_list()):
            return "only assignments end with a semicolon"
        if self.in_list() and self.can("end") and (self.sees("at") or not self.rest):
            return 'each block has the part "end:", which may be empty'
        if self.in_list() and self.sees("state|input|decide"):
            return '"input", "state" and "decide" stand before "at 1:"'
        return None

    def assignment(self):
        if self.can(";"):
            ends = self.sees(r"'\w+|at|end") or not self.rest
            return "an assignment ends with a semicolon" if ends else None
        if self.can("a word for a value"):
            bare = self.sees("if|not")
            return 'an "if" or a "not" stands in ( and ) as an operand' if bare else None
        if self.is_behind("decide") and self.sees(r"single|size|least|has|if|not|[({[]"):
            return '"decide" names a set, and the decision is its least member'
        if not self.can("a name") or self.rest.split(" ")[0] not in language.KEYWORDS:
            return None
        if not self.in_list() or placing.kind_of(self.rest.split(" ")[0]) not in MARKS:
            return "this is a word of the language, and can't be a name"
        if self.sees("if"):
            return "an assignment begins with a name: a := if m > a then m else a;"
        return None


# The words that are told one by one, and no operators.
MARKS = {it for it in placing.ORDER if it[1:-1].isalpha() and it not in ('"or"', '"and"', '"div"')}


def gap_before(text, at):
    """Returns where something is missing before the token that doesn't fit, or None."""
    found = language.tokens(text[:at])
    told = Mistake(text, at)
    is_gap = not told.rest or told.hint() in (
        "an assignment ends with a semicolon",
        "a variable has a first value: state a: num = 0",
    )
    return found[-2].after if is_gap and len(found) > 1 else None
