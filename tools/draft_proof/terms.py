"""Expressions of the round language in the logic: as the tree that is parsed, and as a term.

An expression's term is a number, a truth value, a set as a number, or a list of numbers. What a
program computes is a `Value`: that it's the value of the term holds by computing, but for an `if`,
which is a choice between two values and not the value of a choice. There a reason is given.
"""
import collections

import language
import naming
from layout import TIE

BINARY = {
    "+": "Add", "-": "Sub", "div": "Div", "mod": "Mod", "=": "Equal", "<>": "Differs",
    "<": "Less", "<=": "AtMost", ">": "More", ">=": "AtLeast", "and": "And", "or": "Or",
    "union": "Union", "inter": "Inter", "minus": "Minus", "has": "Has", "entry": "Entry",
}
UNARY = {"not": "Not", "single": "Single", "size": "Size", "least": "Least"}
CONSTANTS = {
    "true": "True", "false": "False", "empty": "Empty", "all": "All", "zero": "Zero", "me": "Me",
    "n": "Nodes", "t": "Faults", "round": "Round", "phase": "Phase", "dest": "Dest", "from": "From",
}
COMPREHENSIONS = {"set of": "TSetOf", "row of": "TRowOf"}
# For each type: its name in a tree, that of its terms, the value of a term and its way back.
Kind = collections.namedtuple("Kind", "tree logic value back choice default")
KINDS = {
    "num": Kind("ty.Num", "ℕ", "Num", "num", "choose_num", "0"),
    "bool": Kind("ty.Bool", "Bool", "Flag", "flag", "choose_flag", "false"),
    "set": Kind("ty.Set", "ℕ", "of_set", "set", "choose_set", "0"),
    "row": Kind("ty.Row", "List ℕ", "Row", "row", "choose_row", "[]"),
}
FIXED = {
    "true": "true", "false": "false", "empty": "0", "all": "everything k", "zero": "replicate k 0",
    "n": "n", "t": "t", "round": "r.number", "phase": "r.phase",
}
FORMS = {
    "+": "min ({} + {}) top", "-": "{} - {}", "div": "div_or_0 {} {}", "mod": "mod_or_0 {} {}",
    "<": "nat_lt {0} {1}", "<=": "nat_le {0} {1}", ">": "nat_lt {1} {0}", ">=": "nat_le {1} {0}",
    "and": "{} && {}", "or": "{} || {}", "not": "not {}",
    "union": "union {} {}", "inter": "inter {} {}", "minus": "minus {} {}",
    "has": "nat_lt {1} k && is_in {0} {1}", "entry": "slice_index {0} {1}",
    "single": "only k {}", "size": "size {}", "least": "least k {}",
}
EQUALS = {"num": "{} == {}", "bool": "beq {} {}", "set": "{} == {}", "row": "bytes_eq {} {}"}

# A variable: its type, its term, the value that the program has for it, and why that is the value
# of the term.
Cell = collections.namedtuple("Cell", "type term value reason")
# What names mean in an expression: the variables, and the nodes that `me`, `dest` and `from` are.
Scope = collections.namedtuple("Scope", "cells me dest sender bound")


def closes_at_end(text):
    """Whether the bracket that a text begins with is closed at its end."""
    depth = 0
    for at, letter in enumerate(text):
        depth += (letter == "(") - (letter == ")")
        if depth == 0:
            return at == len(text) - 1
    return False


def bracketed(text):
    """Returns a text that can be an operand."""
    is_one = not {" ", TIE} & {*text} or text[0] == "(" and closes_at_end(text)
    return text if is_one else f"({text})"


def bare(tree):
    """Returns an expression without the brackets around it."""
    while tree.form == "brackets":
        tree = tree.parts[0]
    return tree


def codes(name):
    return f'codes{TIE}"{name}"'


def tree_of(tree):
    """Returns the expression as a `Tree`."""
    tree = bare(tree)
    if tree.form == "number":
        return f"TNumber {tree.name}"
    if tree.form == "name":
        return f"TNamed{TIE}({codes(tree.name)})"
    if tree.form in CONSTANTS:
        return f"TFixed {CONSTANTS[tree.form]}"
    parts = " ".join(f"({tree_of(it)})" for it in tree.parts)
    if tree.form in COMPREHENSIONS:
        return f"{COMPREHENSIONS[tree.form]} ({codes(tree.name)}) {parts}"
    if tree.form == "if":
        return f"TIf {parts}"
    if tree.form in UNARY:
        return f"TUnary {UNARY[tree.form]} {parts}"
    return f"TBinary {BINARY[tree.form]} {parts}"


def type_of(tree, scope):
    """Returns the type of an expression that is right."""
    tree = bare(tree)
    if tree.form == "name":
        return scope.cells[tree.name].type
    if tree.form == "if":
        return type_of(tree.parts[1], scope)
    if tree.form in ("=", "<>"):
        return "bool"
    return language.SIGNATURES[tree.form][1]


def comprehension(tree, scope):
    name = naming.renamed([tree.name], scope.bound)[tree.name]
    cells = {**scope.cells, tree.name: plain("num", name)}
    body = term(tree.parts[0], scope._replace(cells=cells, bound={*scope.bound, name}))
    if tree.form == "set of":
        return f"set_of k (λ {name}. {body})"
    return f"map (λ {name}. {body}) (range_with_len 0 k)"


def term(tree, scope):
    """Returns the expression's term."""
    tree = bare(tree)
    nodes = {"me": scope.me, "dest": scope.dest, "from": scope.sender}
    if tree.form == "number":
        return str(tree.name)
    if tree.form == "name":
        return scope.cells[tree.name].term
    if tree.form in nodes:
        return nodes[tree.form]
    if tree.form in FIXED:
        return FIXED[tree.form]
    if tree.form in COMPREHENSIONS:
        return comprehension(tree, scope)
    if tree.form == "if":
        return f"{KINDS[type_of(tree, scope)].back} ({cell(tree, scope).value})"
    parts = [bracketed(term(it, scope)) for it in tree.parts]
    if tree.form in ("=", "<>"):
        equal = EQUALS[type_of(tree.parts[0], scope)].format(*parts)
        return equal if tree.form == "=" else f"not ({equal})"
    return FORMS[tree.form].format(*parts)


def value_of(of_type, text):
    return f"{KINDS[of_type].value} {bracketed(text)}"


def plain(of_type, text):
    """Returns what has the value of its term, by computing."""
    return Cell(of_type, text, value_of(of_type, text), "refl")


def cell(tree, scope):
    """Returns what a whole expression is."""
    tree = bare(tree)
    of_type = type_of(tree, scope)
    if tree.form == "name":
        return scope.cells[tree.name]
    if tree.form != "if":
        return plain(of_type, term(tree, scope))
    test = bracketed(term(tree.parts[0], scope))
    one, other = (cell(it, scope) for it in tree.parts[1:])

    chosen = f"if {test} then {bracketed(one.term)} else {bracketed(other.term)}"
    value = f"if {test} then {bracketed_choice(one.value)} else {bracketed_choice(other.value)}"
    parts = [test, one.term, other.term, one.value, other.value, one.reason, other.reason]
    reason = " ".join([KINDS[of_type].choice, *(bracketed(it) for it in parts)])
    return Cell(of_type, chosen, value, reason)


def names_in(tree):
    """Returns the names that an expression reads."""
    found = {tree.name} if tree.form == "name" else set()
    return found.union(*(names_in(it) for it in tree.parts))


def assigned(assignments, scope, variables):
    """Returns what each variable is after the assignments, one after the other."""
    now = {it: scope.cells[it] for it in variables}
    for at, (name, tree) in enumerate(assignments):
        made = cell(tree, scope._replace(cells={**scope.cells, **now}))
        is_read = any(name in names_in(it) for _, it in assignments[at + 1 :])
        if bare(tree).form == "if" and is_read:
            # What reads it later reads the program's value, so the term has to be that value's.
            kind = KINDS[made.type]
            there_and_back = f"λ (z : Value). {kind.value} ({kind.back} z)"
            reason = f"{made.reason} ∙ sym (ap ({there_and_back}) {bracketed(made.reason)})"
            made = Cell(made.type, f"{kind.back} ({made.value})", made.value, reason)
        now[name] = made
    return now


def same_values(cells):
    """Returns why the program's values of some variables are those of their terms."""
    cells = [*cells]
    wrapped = [value_of(it.type, it.term) for it in cells]
    steps = []
    for at, it in enumerate(cells):
        if it.reason != "refl":
            row = [*wrapped[:at], "z", *(other.value for other in cells[at + 1 :])]
            listed = " ∷ ".join(bracketed_choice(other) for other in row)
            steps.append(f"ap (λ (z : Value). {listed} ∷ []) {bracketed(it.reason)}")
    return " ∙ ".join(steps) or "refl"


def bracketed_choice(text):
    """Returns a value that can stand in a list or a choice."""
    return f"({text})" if text.startswith("if ") else text
