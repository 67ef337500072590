"""Drafts proofs/ProgramSteps.antt: the steps of a program, and that they are the program's."""
import importing
from layout import TIE, block
from steps import Steps, position
from terms import bracketed, same_values

HEAD = """
-- The program as steps of nodes. No reader has to believe this file: `spells` ties it to the
-- program.
"""


def round_at(where, number="number", phase="phase"):
    """Returns a round at a position, in one piece."""
    return f"record {{ position = {where}; number = {number}; phase = {phase} }}".replace(" ", TIE)


def cases(lemma, names, reasons):
    """Drafts the cases of a lemma, one for each position, of which there are no others."""
    for at, reason in enumerate(reasons):
        if reason != "refl":
            reason = f"let r : Round = {round_at(at)} in {reason}"
        yield f"{lemma} k n t {position(at)} {names} h = {reason}"
    yield f"{lemma} k n t {position(len(reasons), True)} {names} h = absurd (omega arith)"


def sent_is(steps):
    here = f"({round_at('q')})"
    message = f"letter_at q (message_at q k n t {here} a j i)"
    yield from block(f"""

sent_is : (k n t q number phase : ℕ) (a : Node) (j i : ℕ) → q < {steps.period}
    → sent (slice_get (tree k).blocks q)
    (with_dest i (with_vars (state a) (env_in (tree k) n t {here} j)))
    ≡ (if sends_at q k n t {here} a j i then Some ({message}) else None)
""")
    reasons = []
    for part in steps.program.blocks:
        same = same_values(steps.sent(part))
        if same != "refl":
            test = f"sends{part.number} k n t r a j i"
            same = f"ap (λ (zs : List Value). if {test} then Some zs else None) ({same})"
        reasons.append(same)
    yield from cases("sent_is", "number phase a j i", reasons)


def took(steps):
    here = f"({round_at('q')})"
    yield from block(f"""

took : (k n t q number phase i j : ℕ) (l : Letter) (a : Node) → q < {steps.period}
    → message_taken (slice_get (tree k).blocks q) (env_in (tree k) n t {here} i)
    (record {{ from = j; message = letter_at q l }}) (state a)
    ≡ state (take_at q k n t {here} i j l a)
""")
    reasons = [same_values(steps.taken(it).values()) for it in steps.program.blocks]
    yield from cases("took", "number phase i j l a", reasons)


def finished(steps):
    here = f"({round_at('q')})"
    yield from block(f"""

finished : (k n t q number phase i : ℕ) (a : Node) → q < {steps.period}
    → round_finished (slice_get (tree k).blocks q) (env_in (tree k) n t {here} i)
    (state a) ≡ state (finish_at q k n t {here} i a)
""")
    reasons = [same_values(steps.finished(it).values()) for it in steps.program.blocks]
    yield from cases("finished", "number phase i a", reasons)


def spells(steps):
    done = bracketed(f"members a.{steps.names[steps.program.decided[0]]}")
    return block(f"""

-- the steps are those of the program
pub spells : (k n t : ℕ) → Spells (tree k) n t (machine k n t) state letter
spells k n t = record {{
  period = omega arith;
  start = λ x i. {same_values(steps.begun().values())};
  send = λ r a j i h. sent_is k n t r.position r.number r.phase a j i h;
  take = λ r i j l a h. took k n t r.position r.number r.phase i j l a h;
  finish = λ r i a h. finished k n t r.position r.number r.phase i a h;
}}

-- what a node has decided
abbrev pub decided : Node → Option ℕ
decided a = first_member {done}

pub shows : (k : ℕ) (a : Node) → decision (tree k) (state a) ≡ decided a
shows k a = refl
""")


def in_round(steps):
    """Drafts that what is true after the round of each position is true after any round."""
    period, places = steps.period, range(steps.period)
    names = [f"c{at + 1}" for at in places]
    machine, omits = "(machine k s.nodes s.faults)", "(λ i. omits i (suc r))"
    after = "\n".join(
        f"    → (r % {period} ≡ {at} → Q (after{at + 1} k s.nodes s.faults (round_of {period} r) "
        f"{omits} w))" for at in places)
    found = "\n".join(f"    go {position(at)} e = {names[at]} e" for at in places)
    here = f"({round_at('q', 'suc r', f'r / {period} + 1')})"
    return block(f"""

-- a round is one of those of a phase, by its position
pub in_round : (k : ℕ) (s : Setup) (omits : ℕ → ℕ → ℕ → Bool) (r : ℕ) (w : World)
    (Q : World → Type 0)
{after}
    → Q (one_on {machine} s {period} omits r w)
in_round k s omits r w Q {" ".join(names)} = go (r % {period}) refl
  where
    go : (q : ℕ) → r % {period} ≡ q
        → Q (next_world {machine} s.nodes {here} {omits} w)
{found}
    go {position(period, True)} e = absurd (omega arith)
""")


def lines(program, crate):
    """Returns the lines of the file."""
    steps = Steps(program)
    body = [*steps.lines(), *sent_is(steps), *took(steps), *finished(steps), *spells(steps)]
    body += in_round(steps) if steps.period > 1 else []
    uses = importing.used(importing.MODULES, body)
    return [*block(HEAD), *uses, f"use Rattle.{crate}.specs.Program.{{tree}}", "", *body]
