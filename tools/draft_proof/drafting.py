"""usage: ./draft-proof SOURCE NAME

Begins a proof that a round program keeps agreement, validity and finality for every number of
nodes: writes the crate crates/NAME and its line in crates.txt.

  SOURCE       a file of the round language
  NAME         the name of the crate: small letters, digits and _, with a letter first
  -h, --help   prints this

The crate has the program's text, the program as the logic has it, its steps as records and
functions, the proof that all three are the same, and the law. What is left to write is
proofs/Invariant.antt, with a hole for each of the seven obligations; docs/PROVING.md is the page
on it. To check the crate takes the kit, whose command is `rt`.

The program that reads SOURCE first is dist/roundc, or the file that ROUNDC_PROGRAM names. If
something is refused, nothing is written; the status then is 1, or 2 for a bad command line. Where
SOURCE doesn't check, what `roundc why check` says of it goes to standard error.
"""
import glob
import os
import re
import shutil
import subprocess
import sys
import tempfile

import language
import naming
import program
import ties
from layout import text_of
from steps import Steps

HERE = os.path.dirname(os.path.realpath(__file__))
TOP = os.path.dirname(os.path.dirname(HERE))
BELOW = ("run_events round_lang round_check round_meaning program_slices round_explorer "
         "algorithm_library round_proofs")
RUST = set(
    """abstract as async await become box break const continue crate do dyn else enum extern false
    final fn for gen ghost if impl in let loop macro match mod move mut override priv proof pub ref
    return self static struct super trait true try type typeof unsafe unsized use virtual where
    while yield""".split()
)
OTHERS = {"std", "core", "alloc", "check", "rattle", "test"}


class Refused(Exception):
    """Why nothing is drafted; `status` is the exit status."""

    def __init__(self, words, status=1):
        super().__init__(words)
        self.status = status


def read_text(path):
    with open(path, encoding="utf-8", newline="") as file:
        return file.read()


def kit_libraries():
    """Returns the names of the kit's libraries, or none where there is no kit."""
    command = shutil.which("rt")
    kit = os.path.dirname(os.path.dirname(os.path.realpath(command))) if command else ""
    return {os.path.basename(it)[: -len(".rlib")] for it in glob.glob(f"{kit}/rlibs/*.rlib")}


def check_name(name, top):
    """Refuses what can't be the name of a new crate."""
    if not re.fullmatch("[a-z][a-z0-9_]*", name):
        raise Refused(f"{name!r} is no crate's name: it has small letters, digits and _, and a "
                      "letter first")
    if name in naming.RESERVED | RUST | OTHERS | kit_libraries():
        raise Refused(f"{name!r} is a word of the code or a library of the kit: take another name")
    if name.endswith("_tests"):
        raise Refused(f"{name!r} ends in _tests, as the names of test programs do")
    listed = re.search(rf"(?m)^{name}\b", read_text(f"{top}/crates.txt"))
    if listed or os.path.lexists(f"{top}/crates/{name}"):
        raise Refused(f"there is a crate {name}")


def run(words):
    """Returns how the program ended, and what it printed."""
    roundc = os.environ.get("ROUNDC_PROGRAM") or f"{TOP}/dist/roundc"
    try:
        return subprocess.run([roundc, *words], stdin=subprocess.DEVNULL, stdout=subprocess.PIPE,
                              stderr=subprocess.PIPE, check=False)
    except OSError as why:
        raise Refused(f"can't run {roundc}: {why.strerror}") from None


def read_source(path):
    """Returns the source's text, once the program has said that it's one."""
    if not os.path.isfile(path):
        shown = f"; roundc show {path} prints a text for one" if path.startswith("@") else ""
        raise Refused(f"there is no file {path}{shown}")
    # (a SOURCE that begins with @ would be a program of the library)
    place = f"./{path}" if path.startswith("@") else path
    checked = run(["check", place])
    if checked.returncode != 0:
        words = run(["why", "check", place]).stdout or checked.stderr
        sys.stderr.write(words.decode(errors="replace"))
        raise Refused("", checked.returncode)
    return read_text(path)


def head_of(text):
    """Returns at which byte `values K` begins, and K, if it's written as the proof wants it."""
    content = text.encode()
    words = language.tokens(content)[:3]
    head = content[words[0].first : words[2].first]
    if not re.fullmatch(rb"values [1-9][0-9]? +", head):
        raise Refused("write the line `values K period P` with one blank before K and a blank "
                      "after it, since the proof is one for every K")
    return words[0].first, int(words[1].text)


def templates():
    """Yields the path and the text of each file that is much the same for all programs. (Their
    names have another ending here, since the gate refuses code and proofs outside crates.)"""
    for path in sorted(glob.glob(f"{HERE}/template/**/*.draft", recursive=True)):
        yield os.path.relpath(path, f"{HERE}/template")[: -len(".draft")], read_text(path)


def drafted(name, text):
    """Returns the crate's files: the path of each, and its text."""
    parsed = language.Checked(language.Parser(text.encode()).program())
    at, values = head_of(text)
    given = {
        "CRATE": name, "VALUES": values, "PERIOD": parsed.period, "AT": at,
        "WIDTH": len(f"values {values} "), "FUEL": len(text.encode()) + 1,
        "INPUT": parsed.inputs[0], "FIELD": Steps(parsed).names[parsed.inputs[0]],
    }
    files = {}
    for path, template in templates():
        filled = re.sub("@([A-Z]+)", lambda it: str(given[it[1]]), template)
        files[path] = text_of(filled.rstrip("\n").split("\n"))
    files["src/text.rt"] = "".join(f"{it}\n" for it in program.text_lines(text))
    files["specs/Program.antt"] = text_of(program.lines(parsed))
    files["proofs/ProgramSteps.antt"] = text_of(ties.lines(parsed, name))
    return files


def write(path, text):
    os.makedirs(os.path.dirname(path), exist_ok=True)
    with open(path, "w", encoding="utf-8", newline="") as file:
        file.write(text)


def with_crate(listed, name):
    """Returns crates.txt with the crate's line after that of the framework."""
    lines = listed.split("\n")
    at = next(n for n, it in enumerate(lines) if it.startswith("round_proofs:")) + 1
    return "\n".join([*lines[:at], f"{name}: {BELOW}", *lines[at:]])


def put(name, files, top):
    """Writes the crate, whole or not at all, and then its line."""
    listed = with_crate(read_text(f"{top}/crates.txt"), name)
    room = tempfile.mkdtemp(prefix=".draft-", dir=top)
    try:
        for path, text in files.items():
            write(f"{room}/crate/{path}", text)
        write(f"{room}/crates.txt", listed)
        os.rename(f"{room}/crate", f"{top}/crates/{name}")
        os.replace(f"{room}/crates.txt", f"{top}/crates.txt")
    finally:
        shutil.rmtree(room, ignore_errors=True)


def main(words, top=TOP):
    if words in (["-h"], ["--help"]):
        print(__doc__.strip())
        return 0
    try:
        if len(words) != 2 or words[0].startswith("-"):
            raise Refused("the words are SOURCE NAME; --help says more", 2)
        source, name = words
        check_name(name, top)
        files = drafted(name, read_source(source))
        put(name, files, top)
    except Refused as why:
        if str(why):
            print(f"draft-proof: {why}", file=sys.stderr)
        return why.status
    except (OSError, UnicodeDecodeError, language.Refused) as why:
        print(f"draft-proof: {why}", file=sys.stderr)
        return 1
    print(f"crates/{name} is drafted, and crates.txt has its line\n"
          f"to write: crates/{name}/proofs/Invariant.antt, as docs/PROVING.md says\n"
          f"to check: cd crates/{name}; rt check --allow-holes")
    return 0
