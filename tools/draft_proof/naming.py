"""Names of a program as names of the logic: reserved words and names that clash get others."""

# The words of the logic that can't be names, and those that have a meaning in a clause.
RESERVED = set(
    """data record deriving module where use mod pub package open as unfoldable abbrev axiom unfold
    unfolding ruleset mutual infix infixl infixr elim let in do coe fcoe tcoe hcom com Type yes no
    refl tt absurd search simp rw grw cc omega grind hlevel assumption ground first_of cap pattern
    if then else V vin vproj in_s out_s""".split()
)
# The types of a record's fields, which a field of that name would hide.
TYPES = {"Bool", "List"}


def renamed(names, taken):
    """Returns a name of the logic for each of these names, its own one where that is free."""
    def is_free(name):
        return name not in taken and not name.startswith("_")

    given = {name: name for name in names if is_free(name)}
    for name in names:
        if name not in given:
            other = name.lstrip("_") or "it"
            other = other if not other[0].isdigit() else f"it{other}"
            while other in taken or other in given.values():
                other += "_"
            given[name] = other
    return given
