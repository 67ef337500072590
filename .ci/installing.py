"""What the tests of ./install share: calls of it, what they expect, and a program's help."""
import os
import shutil
import subprocess

TOP = os.path.dirname(os.path.dirname(os.path.realpath(__file__)))
PROGRAM = os.path.realpath(os.environ.get("ROUNDC_PROGRAM") or f"{TOP}/dist/roundc")
SCHEDULE = "nodes 2\nfaults 0\ninputs 0 1\nrounds 1\nplan known 1\nstep 0\n"
ANSWER = "node 0 steps 1 rounds 0\nnode 1 steps 0 rounds 0\n"
# What a program with other commands says of itself.
LATER = {
    "": """Does things

Usage: roundc <COMMAND>

Commands:
  show  Shows [all]: it's so
  why   Says why
  help  Print this

Options:
  -h, --help  Print help
""",
    "show": """Shows

Usage: roundc show <COMMAND>

Commands:
  all   Shows all
  help  Print this

Options:
  -h, --help  Print help
""",
    "show all": """Shows all

Usage: roundc show all [OPTIONS] <SOURCE>

Arguments:
  <SOURCE>
          A file

Options:
      --by <BY>
          By what

          [possible values: node, round]
  -h, --help
          Print help
""",
    "why": """Says why

Usage: roundc why <COMMAND>...

Arguments:
  <COMMAND>...  The words of a command
""",
}


class Failed(Exception):
    """Something that isn't as it has to be; its text says what."""


class Skipped(Exception):
    """A test that can't be made here; its text says why."""


def expect(what, wanted, came):
    if wanted != came:
        raise Failed(f"{what}: {came!r} instead of {wanted!r}")


def need(command):
    if not shutil.which(command):
        raise Skipped(f"{command} isn't installed")


def called(words, **others):
    return subprocess.run(words, stdout=subprocess.PIPE, stderr=subprocess.PIPE, text=True,
                          check=False, **others)


def install(*words, program=None, status=0, **others):
    """Runs ./install, which says nothing on standard error, or one line and has the status 1."""
    environment = {**os.environ, "ROUNDC_PROGRAM": program or PROGRAM, **others.pop("env", {})}
    ran = called([f"{TOP}/install", *words], env=environment, **others)
    expect(f"./install {' '.join(words)}", status, ran.returncode)
    expect("standard error's lines", int(status != 0), len(ran.stderr.splitlines()))
    if status == 1:
        expect("standard error", "install: ", ran.stderr[:9])
    return ran


def below(folder):
    """Returns all files and folders below a folder."""
    return sorted(os.path.relpath(os.path.join(at, it), folder)
                  for at, folders, files in os.walk(folder) for it in folders + files)


def answers(program, **others):
    ran = called([program, "run", "@gather:2", "--schedule", "-"], input=SCHEDULE, **others)
    expect(f"what {program} says", (ANSWER, ""), (ran.stdout, ran.stderr))
