"""Reads what the program says of itself: its commands with their arguments and options.

`roundc help` lists the commands and `roundc help COMMAND` says what each takes, in the form that
`clap` gives them. Whatever is made of that (the man page, the completions) knows a command or an
option that comes later without a change here.
"""
import dataclasses
import re
import subprocess

ENTRY = re.compile(r"^ {2,6}(?P<term>\S.*?)(?: {2,}(?P<help>\S.*))?$")
VALUE = re.compile(r"(?:--[\w-]+|-\w)(?:[ =]| ?\[=?)[<\[]?<?(?P<value>[^<>\[\] ]+)[>\]]")
CHOICES = re.compile(r"\s*\[possible values: (?P<choices>[^\]]*)\]")


class BadHelp(Exception):
    """A help text that can't be read; its text says which."""


@dataclasses.dataclass
class Argument:
    """A word that a command takes by its place: `value` is its name in the help text."""

    value: str
    help: str
    choices: list
    is_required: bool
    is_many: bool


@dataclasses.dataclass
class Option:
    """An option with its names, the short one first, and the names of its values."""

    names: list
    values: list
    help: str
    choices: list
    is_required: bool

    @property
    def long(self):
        return self.names[-1]

    @property
    def value(self):
        """The name of the first value, or '' if it takes none."""
        return self.values[0] if self.values else ""


@dataclasses.dataclass
class Command:
    """A command: the words that call it (none for the program itself), and what it takes."""

    path: list
    about: str
    arguments: list
    options: list
    commands: list

    @property
    def name(self):
        return self.path[-1]

    def all(self):
        """Yields this command and those below it."""
        yield self
        for command in self.commands:
            yield from command.all()


def entries(lines):
    """Yields the entries of a list as terms with their help, which may go over several lines."""
    found = []
    for line in lines:
        entry = ENTRY.match(line)
        if entry:
            found.append([entry["term"], entry["help"] or ""])
        elif found and line.strip():
            found[-1][1] = f"{found[-1][1]} {line.strip()}".strip()
    return found


def parts(text):
    """Splits a help text into what stands before its first head line, and its lists by their
    head lines; the words behind `Usage:` are a list too."""
    lists, head = {"": []}, ""
    for line in text.splitlines():
        found = re.match(r"^([A-Z][\w ]*):(.*)$", line)
        if found and (head or "Usage" in found[1]):
            head = found[1]
            lists[head] = [found[2].strip()] if found[2].strip() else []
        else:
            lists[head].append(line)
    return lists


def choices_of(value, told):
    """Returns the values that there are, if they are told, and the help without them."""
    found = CHOICES.search(told)
    if found:
        return found["choices"].split(", "), CHOICES.sub("", told)
    return (value.split("|") if "|" in value else []), told


def argument_of(term, told, usage):
    value = term.strip("<>[].")
    choices, told = choices_of(value, told)
    return Argument(value, told, choices, f"<{value}>" in usage, term.endswith("..."))


def option_of(term, told, usage):
    found = VALUE.search(term)
    values = [found["value"], *re.findall(r"<([^<>]+)>", term[found.end():])] if found else []
    names = re.findall(r"(?<!\S)--?\w[\w-]*", term)
    choices, told = choices_of(values[0] if values else "", told)
    # (a required option stands in the usage by itself, another in the place of [OPTIONS])
    is_required = any(re.search(rf"(?<![\[\w-]){re.escape(it)}(?![\w-])", usage) for it in names)
    return Option(names, values, told, choices, is_required)


class Program:
    """The program that is asked."""

    def __init__(self, path):
        self.path = path

    def said(self, words):
        words = [self.path, *words]
        ran = subprocess.run(words, capture_output=True, text=True, timeout=60, check=False)
        if ran.returncode != 0 or not ran.stdout:
            raise BadHelp(f"{' '.join(words)} says nothing: {ran.stderr.strip()}")
        return ran.stdout

    def command(self, path):
        """Returns the command that a path names, with those below it."""
        lists = parts(self.said(["help", *path]))
        about = " ".join(" ".join(lists.pop("")).split())
        usage = " ".join(" ".join(lists.pop("Usage", [])).split())
        if not usage:
            raise BadHelp(f"no usage in the help of {' '.join(['roundc', *path])}")
        arguments = [argument_of(*it, usage) for it in entries(lists.pop("Arguments", []))]
        commands = [
            Command([*path, "help"], told, [Argument("COMMAND", "", [], False, True)], [], [])
            if name == "help"
            else self.command([*path, name])
            for name, told in entries(lists.pop("Commands", []))
        ]
        if not path:
            listed = [it.name for it in commands]
            commands += [] if "why" in listed else self.why()
            commands += [] if "test" in listed else self.test()
        options = [option_of(*it, usage) for them in lists.values() for it in entries(them)]
        return Command(path, about, arguments, options, commands)

    def why(self):
        """Returns the command that takes the words of any other and that `help` doesn't list, if
        the program has it."""
        try:
            about = self.said(["why", "--help"]).splitlines()[0]
        except BadHelp:
            return []
        return [Command(["why"], about, [Argument("COMMAND", "", [], True, True)], [], [])]

    def test(self):
        """Returns the command that runs transcripts and that `help` doesn't list, if the program
        has it."""
        try:
            return [self.command(["test"])]
        except BadHelp:
            return []
