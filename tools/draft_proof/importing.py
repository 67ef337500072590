"""Which names of which modules a drafted file brings in."""
import re

from layout import imports

PROVED = "Rattle.std.proofs.Common"
PRELUDE = "Rattle.std.specs.Prelude"
LANG = "Rattle.round_lang.specs"
TURN = "Rattle.round_meaning.specs.Turn"
# The modules, and what may be used of each.
MODULES = (
    (PROVED, """◌≡◌ ℕ zero suc ◌+◌ ◌-◌ ◌<◌ ◌%◌ ◌/◌ Bool true false List [] ◌∷◌ map refl sym ap ◌∙◌
        Option Some None arith"""),
    (PRELUDE, """min ◌&&◌ ◌||◌ not nat_lt nat_le ◌==◌ slice_get slice_index replicate
        if◌then◌else◌"""),
    ("Rattle.std.specs.Bool", "beq"),
    ("Rattle.std.specs.Str", "bytes_eq"),
    ("Rattle.std.specs.List", "range_with_len"),
    (f"{LANG}.declared.value.Value", "Value"),
    (f"{LANG}.declared.value.Value.TheVariants", "Num Flag Row"),
    (f"{LANG}.Sets", "everything inter is_in least members minus only set_of size union"),
    (f"{LANG}.Values", "div_or_0 flag mod_or_0 num of_set row set"),
    ("Rattle.round_meaning.specs.declared.setup.Setup", "Setup"),
    (TURN, "decision first_member message_taken round_finished sent with_dest with_vars"),
    ("Rattle.round_proofs.specs.Machines", "Machine Round Spells env_in hear next_world round_of"),
    ("Rattle.round_proofs.specs.Safety", "one_on"),
    ("Rattle.round_proofs.proofs.Counting", "kept"),
    ("Rattle.round_proofs.proofs.Choices", "choose_num choose_flag choose_set choose_row"),
)
SPECS = (
    (PRELUDE, "ℕ [] ◌∷◌ codes"),
    (f"{LANG}.declared.expr.BinaryOperator.TheVariants", """Add And AtLeast AtMost Differs Div Entry
        Equal Has Inter Less Minus Mod More Or Sub Union"""),
    (f"{LANG}.declared.expr.Constant.TheVariants", """All Dest Empty False Faults From Me Nodes
        Phase Round True Zero"""),
    (f"{LANG}.declared.expr.UnaryOperator.TheVariants", "Least Not Single Size"),
    (f"{LANG}.declared.program.VariableKind.TheVariants", "Input State"),
    (f"{LANG}.Syntax", "BlockTree ProgramTree"),
    (f"{LANG}.Tree", "TBinary TFixed TIf TNamed TNumber TRowOf TSetOf TUnary"),
)


def words_of(lines):
    """Returns the words of a file's lines but for remarks."""
    text = "\n".join(re.sub(r"(?:^|(?<= ))--.*", "", it) for it in lines)
    return set(re.split(r"[\s\0(){};,]+", text))


def used(modules, lines):
    """Returns the lines that bring in the names that are used of these modules."""
    words, found = words_of(lines), []
    for module, names in modules:
        these = [it for it in names.split() if set(it.split("◌")) - {""} <= words]
        found += imports(module, these)
    return found


def all_names(modules):
    """Returns the names that a file may bring in."""
    return {it for _, names in modules for it in names.split()}
