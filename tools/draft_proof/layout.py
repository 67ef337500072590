"""Lays out what is drafted, in lines of at most 100 columns."""
WIDTH = 100
DEEPER = 4
# A blank at which no line is broken.
TIE = "\0"


def indent_of(line):
    return len(line) - len(line.lstrip(" "))


def margin_of(line):
    """Returns what the lines begin with that go on with a line. They are deeper than a line that
    names what it says, and as deep as one that goes on itself."""
    first, words = indent_of(line), line.split()
    if words[0] == "--":
        return " " * first + "-- "
    return " " * (first + DEEPER if first == 0 or words[1] == "=" else first)


def broken(line):
    """Breaks a line at blanks where it's too long."""
    if len(line) <= WIDTH:
        return [line]
    first, margin = indent_of(line), margin_of(line)
    found, now = [], " " * first
    for word in line[first:].split(" "):
        is_begun = now not in (" " * first, margin)
        if is_begun and len(now) + 1 + len(word) > WIDTH:
            found.append(now)
            now, is_begun = margin, False
        now += " " + word if is_begun else word
    return [*found, now]


def block(text):
    """Returns the lines of a text in quotes that stand on lines of their own."""
    return text.split("\n")[1:-1]


def text_of(lines):
    """Returns a file's text."""
    return "".join(f"{it}\n" for line in lines for it in broken(line)).replace(TIE, " ")


def imports(module, names):
    """Returns the lines that bring in names of a module."""
    found, now = [], []
    for name in names:
        if len(f"use {module}.{{{', '.join([*now, name])}}}") > WIDTH:
            found.append(now)
            now = []
        now = [*now, name]
    return [f"use {module}.{{{', '.join(it)}}}" for it in [*found, now] if it]
