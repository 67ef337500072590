"""Which commands the page may ask for, and with which options.

A request names its words, as on a command line. They are read one by one here, and put together
anew as `--option=value`, so that no value is ever read as an option. What isn't listed is refused.
"""
import re

# The files of a request, and the one that a command may write.
GIVEN = ("program.rounds", "run.header", "run.omissions", "run.schedule")
MADE = "found.schedule"
# What `--always` may have: an expression of the language, which has no control characters.
MAX_EXPRESSION = 4096


class Refused(Exception):
    """Why a request isn't served."""


def is_given(value, files):
    return value in files


def is_header(value, files):
    return value in files or re.fullmatch(r"@\d{1,4}:\d{1,4}:\d{1,4}", value)


def is_source(value, files):
    return value in files or re.fullmatch(r"@(gather|count_votes|dls1):\d{1,4}", value)


def is_made(value, _files):
    return value == MADE


def is_expression(value, _files):
    return len(value) <= MAX_EXPRESSION and not re.search(r"[\x00-\x08\x0b-\x1f\x7f]", value)


def matches(pattern):
    """Returns a test of values that the whole pattern matches."""
    return lambda value, _files: re.fullmatch(pattern, value)


NUMBER = matches(r"\d{1,10}")
FORMAT = matches("text|json|table|summary|omissions")
RANGE = matches(r"\d{1,4}-\d{1,4}")
RUN = {"--format": FORMAT, "--decided": None}
OMISSIONS = {"--header": is_header, "--omissions": is_given}
# The commands with their options; an option whose test is None has no value. There are neither
# `threads`, which may never end, nor `lockstep`, which may print without end, nor `--jobs`.
SERVED = {
    "check": {"--format": matches("text|json")},
    "show": {},
    "rounds": {**OMISSIONS, **RUN},
    "run": {"--schedule": is_given, **RUN},
    "realise": OMISSIONS,
    "draw": {"--schedule": is_given, "--rounds": RANGE},
    "explore": {
        "--header": is_header,
        "--inputs": matches("header|any"),
        "--faults": matches("none|omission|crash"),
        "--clear": NUMBER,
        "--hears": NUMBER,
        "--check": matches("[a-z]{1,20}(,[a-z]{1,20}){0,3}"),
        "--always": is_expression,
        "--trace": is_made,
        "--format": matches("text|json"),
        "--brief": None,
    },
}


def read_files(asked):
    """Returns the files of a request, each a name of GIVEN with its bytes."""
    files = asked.get("files", {})
    if not isinstance(files, dict):
        raise Refused("files has to be an object")
    read = {}
    for name, text in files.items():
        if name not in GIVEN:
            raise Refused("a file's name isn't one that the lab has")
        if not isinstance(text, str):
            raise Refused("a file has to be a text")
        try:
            read[name] = text.encode()
        except UnicodeEncodeError:
            raise Refused("a file isn't Unicode") from None
    return read


def read_words(asked, files):
    """Returns the words that roundc is called with."""
    words = asked.get("words")
    if not isinstance(words, list) or not all(isinstance(it, str) for it in words):
        raise Refused("words has to be a list of texts")
    left = list(words)
    made = [left.pop(0)] if left[:1] == ["why"] else []
    command = left.pop(0) if left else ""
    if command not in SERVED:
        raise Refused("the command isn't served")
    source = left.pop(0) if left else ""
    if not is_source(source, files):
        raise Refused("the source isn't a file of the request")
    made += [command, source]
    options = dict(SERVED[command])
    while left:
        option = left.pop(0)
        if option not in options:
            raise Refused("an option isn't served, or is there twice")
        test = options.pop(option)
        if test is None:
            made.append(option)
            continue
        value = left.pop(0) if left else ""
        if not test(value, files):
            raise Refused(f"the value of {option} isn't served")
        made.append(f"{option}={value}")
    return made


def is_search(words):
    """Whether the words are those of a search, which may take long."""
    return "explore" in words[:2]
