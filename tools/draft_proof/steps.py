"""A program as steps of nodes: records of its variables and messages, and functions for each round.
What is drafted here is tied to the program in ties.py."""
import importing
import naming
from layout import block
from terms import KINDS, Scope, assigned, bracketed, cell, plain, term

# The variables of the drafted definitions, and the definitions themselves.
BINDERS = set("k n t r i j l a x z zs".split())
DEFINED = set(
    """top Node Letter World state start letter_at letter machine sent_is took finished spells
    decided shows sends_at message_at take_at finish_at in_round go""".split()
)
# What a round has: for each part what it takes beside k, n and t, and its type.
PARTS = {"sends": "r a j i", "message": "r a j i", "take": "r i j l a", "finish": "r i a"}
TYPES = {
    "sends": "Round → Node → (j i : ℕ) → Bool",
    "message": "Round → Node → (j i : ℕ) → Letter",
    "take": "Round → (i j : ℕ) → Letter → Node → Node",
    "finish": "Round → (i : ℕ) → Node → Node",
}
WHOLE = ("heard", "ear", "after", "kept")


def position(at, is_last=False):
    """Returns the pattern of a position, or of it and all after it."""
    found = "q" if is_last else "zero"
    for _ in range(at):
        found = f"(suc {found})"
    return found


def listed(cells):
    """Returns the list of the values of terms, each with its type."""
    return " ∷ ".join([*(f"{KINDS[of].value} {bracketed(text)}" for of, text in cells), "[]"])


def fields_of(cells):
    return "\n".join(f"  {name} = {text};" for name, text in cells)


class Steps:
    """The steps of a program."""

    def __init__(self, program):
        self.program, self.period = program, program.period
        self.variables = {it.name: it.type for it in program.variables}
        taken = naming.RESERVED | naming.TYPES
        self.names = naming.renamed(self.variables, taken)
        self.mine = {it: plain(of, f"a.{self.names[it]}") for it, of in self.variables.items()}
        self.fields = {(it.number, name): of for it in program.blocks for name, of in it.fields}
        spelt = {it: it[1] if self.period == 1 else f"{it[1]}{it[0]}" for it in self.fields}
        given = naming.renamed(spelt.values(), taken)
        self.letters = {it: given[name] for it, name in spelt.items()}
        rounds = {f"{part}{it + 1}" for it in range(self.period) for part in [*PARTS, *WHOLE]}
        self.bound = naming.RESERVED | BINDERS | DEFINED | rounds
        self.bound |= importing.all_names(importing.MODULES)

    def scope(self, me="i", fields=()):
        return Scope({**self.mine, **dict(fields)}, me, "i", "j", self.bound)

    # What the program computes

    def begun(self):
        """Returns what each variable is before the first round."""
        scope = Scope({self.program.inputs[0]: plain("num", "x")}, "i", "i", "j", self.bound)
        return {it.name: cell(it.value, scope) if it.value else plain("num", "x")
                for it in self.program.variables}

    def sent(self, part):
        """Returns what is sent in a round."""
        return [cell(it, self.scope(me="j")) for it in part.sent]

    def taken(self, part):
        """Returns what each variable is after a message of a round."""
        fields = {name: plain(of, f"l.{self.letters[part.number, name]}")
                  for name, of in part.fields}
        return assigned(part.message, self.scope(fields=fields), self.variables)

    def finished(self, part):
        """Returns what each variable is after a round."""
        return assigned(part.end, self.scope(), self.variables)

    # What is drafted

    def nodes(self):
        """Drafts the records of variables and of messages."""
        variables = [(self.names[it], KINDS[of].logic) for it, of in self.variables.items()]
        letters = [(self.letters[it], KINDS[of].logic) for it, of in self.fields.items()]
        values = listed((it.type, it.term) for it in self.mine.values())
        started = fields_of((self.names[it], cell.term) for it, cell in self.begun().items())
        return block(f"""
abbrev pub top : ℕ
top = 4294967295

-- a node's variables
pub record Node : Type 0 where
{self.declared(variables)}

-- the states of all nodes
abbrev pub World : Type 0
World = ℕ → Node

abbrev pub state : Node → List Value
state a = {values}

-- the fields of the messages, by round of the phase
pub record Letter : Type 0 where
{self.declared(letters or [("nothing", "ℕ")])}

-- the state of node i with input x
abbrev pub start : (k n t x i : ℕ) → Node
start k n t x i = record {{
{started}
}}
""")

    def declared(self, fields):
        return "\n".join(f"  pub {name} : {logic}" for name, logic in fields)

    def message(self, part):
        """Returns the fields of a round's message; those of other rounds have no meaning."""
        sent = {(part.number, name): it.term for (name, _), it in zip(part.fields, self.sent(part))}
        found = [(self.letters[it], sent.get(it, KINDS[of].default))
                 for it, of in self.fields.items()]
        return fields_of(found or [("nothing", "0")])

    def variables_of(self, cells):
        return fields_of((self.names[name], it.term) for name, it in cells.items())

    def round(self, part):
        """Drafts the parts of one round of a phase."""
        q = part.number
        return block(f"""

-- round {q} of a phase: whether j sends to i, and what
abbrev pub sends{q} : (k n t : ℕ) → {TYPES["sends"]}
sends{q} k n t r a j i = {term(part.when, self.scope(me="j"))}

abbrev pub message{q} : (k n t : ℕ) → {TYPES["message"]}
message{q} k n t r a j i = record {{
{self.message(part)}
}}

-- node i after a message of node j
abbrev pub take{q} : (k n t : ℕ) → {TYPES["take"]}
take{q} k n t r i j l a = record {{
{self.variables_of(self.taken(part))}
}}

-- node i at the end of the round
abbrev pub finish{q} : (k n t : ℕ) → {TYPES["finish"]}
finish{q} k n t r i a = record {{
{self.variables_of(self.finished(part))}
}}
""")

    def whole_round(self, q):
        """Drafts what nodes hear in a round, and what they are before its end and after it."""
        given, args = "(k n t : ℕ) → Round → (o : ℕ → ℕ → Bool) → World", "k n t r o w i"
        return block(f"""

-- whether i hears j, where `o i j` says that j's message doesn't come to i
abbrev pub heard{q} : {given} → (i j : ℕ) → Bool
heard{q} {args} j = not (o i j) && sends{q} k n t r (w j) j i

-- node i after its messages, and after the round
abbrev pub ear{q} : {given} → World
ear{q} {args} =
    hear (take{q} k n t r i) (heard{q} {args})
    (λ j. message{q} k n t r (w j) j i) (range_with_len 0 n) (w i)

abbrev pub after{q} : {given} → World
after{q} {args} = finish{q} k n t r i (ear{q} {args})

-- what each message that is heard keeps is true after all of them
pub kept{q} : (k n t : ℕ) (r : Round) (o : ℕ → ℕ → Bool) (w : World) (i : ℕ)
    (J : Node → Type 0)
    → ((j : ℕ) (a : Node) → j < n → heard{q} {args} j ≡ true → J a
    → J (take{q} k n t r i j (message{q} k n t r (w j) j i) a))
    → J (w i) → J (ear{q} {args})
kept{q} {args} J step h =
    kept J (take{q} k n t r i) (heard{q} {args})
    (λ j. message{q} k n t r (w j) j i) 0 n
    (λ j lo hi e a g. step j a (omega arith) e g) (w i) h
""")

    def by_position(self, part):
        """Drafts a part of a round by the round's position in the phase."""
        yield from ("", f"abbrev pub {part}_at : ℕ → (k n t : ℕ) → {TYPES[part]}")
        for at in range(self.period):
            where = position(at, at == self.period - 1)
            yield f"{part}_at {where} k n t {PARTS[part]} = {part}{at + 1} k n t {PARTS[part]}"

    def letter(self):
        """Drafts the values of a message's fields."""
        yield from ("", "abbrev pub letter_at : ℕ → Letter → List Value")
        for part in self.program.blocks:
            where = position(part.number - 1, part.number == self.period)
            fields = [(of, f"l.{self.letters[part.number, name]}") for name, of in part.fields]
            yield f"letter_at {where} l = {listed(fields)}"

    def machine(self):
        """Drafts the machine that these steps make."""
        for part in PARTS:
            yield from self.by_position(part)
        yield from self.letter()
        yield from block("""

abbrev pub letter : Round → Letter → List Value
letter r l = letter_at r.position l

abbrev pub machine : (k n t : ℕ) → Machine Node Letter
machine k n t = record {
  start = λ x i. start k n t x i;
""")
        for part, names in PARTS.items():
            yield f"  {part} = λ {names}. {part}_at r.position k n t {names};"
        yield "}"

    def lines(self):
        found = [*self.nodes()]
        for part in self.program.blocks:
            found += [*self.round(part), *self.whole_round(part.number)]
        return [*found, *self.machine()]
