"""Drafts specs/Program.antt, a program as the logic has it, and the text in src/text.rt."""
import importing
from layout import WIDTH
from terms import KINDS, codes, tree_of

TYPES = "use Rattle.round_lang.specs.declared.expr.Ty.TheVariants as ty"
ESCAPES = {"\\": "\\\\", '"': '\\"', "\t": "\\t", "\r": "\\r", "\0": "\\0"}
DEEP = 6


def record(*fields):
    """Returns the lines of a record: one, or one a field where that's too long."""
    line = f"record {{ {'; '.join(f'{name} = {text}' for name, text in fields)} }}"
    if len(line) <= WIDTH - DEEP - len("∷ "):
        return [line]
    return ["record {", *(f"  {name} = {text};" for name, text in fields), "}"]


def listed(name, items):
    """Returns the lines of a record's field that is a list of items, each with its lines."""
    line = " ∷ ".join([*(" ".join(it) for it in items), "[]"])
    if all(len(it) == 1 for it in items) and len(f"  {name} = {line};") <= WIDTH:
        return [f"  {name} = {line};"]
    lines = [f"  {name} ="]
    for at, (first, *others) in enumerate(items):
        lines += [" " * DEEP + ("∷ " if at else "") + first, *(" " * DEEP + it for it in others)]
    return [*lines, " " * DEEP + "∷ [];"]


def typed(name, of_type):
    return record(("name", codes(name)), ("ty", KINDS[of_type].tree))


def assignment(name, tree):
    return record(("target", codes(name)), ("formula", tree_of(tree)))


def declaration(it):
    kind = "Input" if it.kind == "input" else f"State {KINDS[it.type].tree} ({tree_of(it.value)})"
    return record(("name", codes(it.name)), ("kind", kind))


def block_of(block):
    number = block.number
    return [
        f"-- what is done in round {number} of a phase", f"abbrev pub block{number} : BlockTree",
        f"block{number} = record {{", f"  number = {number};",
        *listed("fields", [typed(*it) for it in block.fields]),
        f"  condition = {tree_of(block.when)};",
        *listed("sent", [[tree_of(it)] for it in block.sent]),
        *listed("on_message", [assignment(*it) for it in block.message]),
        *listed("end", [assignment(*it) for it in block.end]), "}", ""]


def lines(program):
    """Returns the lines of the program's definition."""
    body = [line for block in program.blocks for line in block_of(block)]
    blocks = " ∷ ".join([*(f"block{it.number}" for it in program.blocks), "[]"])
    body += [
        "-- the program, over the values 0 to k-1", "abbrev pub tree : ℕ → ProgramTree",
        "tree k = record {", "  values = k;", f"  period = {program.period};",
        *listed("variables", [declaration(it) for it in program.variables]),
        f"  decides = {codes(program.decided[0])} ∷ [];", f"  blocks = {blocks};", "}"]
    uses = importing.used(importing.SPECS, body)
    return ["-- The program.", *uses, TYPES, "", *body]


def escaped(letter):
    """Returns how a letter is written in a Rust string."""
    if letter in ESCAPES:
        return ESCAPES[letter]
    is_plain = letter == "\n" or letter.isprintable()
    return letter if is_plain else f"\\u{{{ord(letter):x}}}"


def string_lines(text):
    """Returns the lines of a Rust string of this text. A line that is too long goes on after a
    backslash, after which Rust skips blanks: so the next line begins with none."""
    found, now, is_joined = [], "", True
    for at, letter in enumerate(text):
        piece = escaped(letter)
        if is_joined and not now and letter in " \n":
            piece = "\\n" if letter == "\n" else "\\x20"
        room = WIDTH - {"\n": 0, "": 2}.get(text[at + 1 : at + 2], 1)
        if letter != "\n" and len(now) + len(piece) > room:
            cut = now.rfind(" ") + 1 or len(now)
            found.append(f"{now[:cut]}\\")
            now, is_joined = now[cut:], True
            piece = "\\x20" if letter == " " and not now else piece
        if piece == "\n":
            found.append(now)
            now, is_joined = "", False
        else:
            now += piece
    return [*found, now]


def text_lines(text):
    """Returns the lines of src/text.rt."""
    return ["//! The program's text, byte for byte.", "",
            'pub(crate) const TEXT: &str = "\\', *string_lines(text)[:-1],
            f'{string_lines(text)[-1]}";']
