"""usage: ./lab [SOURCE] [--port P] [--no-browser] [--seconds S]

Serves a page on 127.0.0.1 on which a program is edited, messages are clicked away, and
counterexamples appear. Each answer on it is one of roundc's commands.

  SOURCE          a file of the round language, @NAME:VALUES, or a link that the page has copied
  --port P        the port, 1 to 65535; by default one that is free
  --no-browser    prints the address, and opens no browser
  --seconds S     how long a search may take, 1 to 86400; 600 by default
  -h, --help      prints this

The program is dist/roundc, or the file that ROUNDC_PROGRAM names. Where roundc is installed the lab
is called roundc-lab. Ctrl-C ends it.
"""
import json
import os
import re
import secrets
import signal
import subprocess
import sys
import threading
import webbrowser

if sys.version_info < (3, 8):
    print("lab: it needs Python 3.8 or later; python3 is", sys.version.split()[0], file=sys.stderr)
    sys.exit(4)

from running import MAX_OUTPUT, Runner
from server import Lab, Page

HERE = os.path.dirname(os.path.realpath(__file__))
MAX_SOURCE = 65536
# Where the program and the examples are: in a clone, and below the PREFIX of ./install.
CLONE = os.path.dirname(os.path.dirname(HERE))
PREFIX = os.path.dirname(CLONE)
PROGRAMS = (f"{CLONE}/dist/roundc", f"{PREFIX}/lib/roundc/roundc")
EXAMPLES = (f"{CLONE}/examples", f"{PREFIX}/share/doc/roundc/examples")


class Failed(Exception):
    """Why there is no lab; `status` is the exit status."""

    def __init__(self, words, status=1):
        super().__init__(words)
        self.status = status


def read_options(words):
    """Returns what the command line asks for."""
    options = {"source": None, "port": 0, "browser": True, "seconds": 600}
    left = list(words)
    while left:
        word = left.pop(0)
        name, is_joined, value = word.partition("=")
        if name in ("--port", "--seconds"):
            value = value if is_joined else (left.pop(0) if left else "")
            most = 65535 if name == "--port" else 86400
            if not re.fullmatch("[0-9]{1,6}", value) or not 1 <= int(value) <= most:
                raise Failed(f"the value of {name} is 1 to {most}", 2)
            options[name[2:]] = int(value)
        elif word == "--no-browser":
            options["browser"] = False
        elif word.startswith("-") or options["source"] is not None:
            raise Failed(f"{word!r} isn't expected here; --help shows what is", 2)
        else:
            options["source"] = word
    return options


def find_program():
    """Returns the program, and what it says of its version."""
    named = os.environ.get("ROUNDC_PROGRAM")
    found = [it for it in ([named] if named else PROGRAMS) if os.path.isfile(it)]
    if not found:
        raise Failed(f"there is no program {named or PROGRAMS[0]}; README.md says how it's built")
    program = os.path.realpath(found[0])
    try:
        ran = subprocess.run([program, "--version"], stdin=subprocess.DEVNULL, check=True,
                             stdout=subprocess.PIPE, stderr=subprocess.PIPE)
    except (OSError, subprocess.CalledProcessError):
        raise Failed(f"{program} doesn't run on this system") from None
    return program, ran.stdout.decode(errors="replace").strip()


def show(program, source):
    """Returns the text of a program of the library."""
    ran = subprocess.run([program, "show", source], stdin=subprocess.DEVNULL, check=False,
                         stdout=subprocess.PIPE, stderr=subprocess.PIPE)
    if ran.returncode != 0:
        raise Failed(f"there is no program {source}: {ran.stderr.decode().strip()}")
    return ran.stdout.decode()


def read_file(path):
    """Returns a source's text."""
    try:
        with open(path, "rb") as file:
            text = file.read(MAX_SOURCE + 1)
    except OSError as why:
        raise Failed(f"can't read {path}: {why.strerror}") from None
    if len(text) > MAX_SOURCE:
        raise Failed(f"{path} is longer than {MAX_SOURCE} bytes")
    try:
        return text.decode()
    except UnicodeDecodeError:
        raise Failed(f"{path} isn't UTF-8") from None


def read_source(program, source):
    """Returns what the page begins with, and the fragment of a link."""
    if source is None:
        return None, ""
    link = re.fullmatch(r"https?://[^#\s]*#([A-Za-z0-9_-]+)", source)
    if link:
        return None, link[1]
    if re.fullmatch(r"@[a-z0-9_]+:[0-9]+", source):
        return {"name": source, "text": show(program, source)}, ""
    return {"name": os.path.basename(source), "text": read_file(source)}, ""


def read_examples(program):
    """Returns the examples that are there, each with its text and its story."""
    with open(f"{HERE}/stories.json", encoding="utf-8") as file:
        stories = json.load(file)
    folder = next((it for it in EXAMPLES if os.path.isdir(f"{it}/shelf")), None)
    found = []
    for story in stories:
        source = story["source"]
        if source.startswith("@"):
            found.append({**story, "text": show(program, source)})
        elif folder and os.path.isfile(f"{folder}/{source}"):
            found.append({**story, "text": read_file(f"{folder}/{source}")})
    return found


def end(*_):
    """A signal ends the lab as the end of its terminal does."""
    raise KeyboardInterrupt


def listen(port, page, runner):
    """Returns the server, on a port that it then has."""
    try:
        return Lab(port, secrets.token_urlsafe(24), page, runner)
    except OSError as why:
        raise Failed(f"can't listen on port {port}: {why.strerror}") from None


def serve(options):
    """Serves until a signal comes."""
    program, version = find_program()
    start, fragment = read_source(program, options["source"])
    data = {"version": version, "start": start, "examples": read_examples(program),
            "maxOutput": MAX_OUTPUT, "seconds": options["seconds"]}
    ends = (signal.SIGINT, signal.SIGTERM, signal.SIGHUP)
    runner = None
    try:
        for name in ends:
            if signal.getsignal(name) != signal.SIG_IGN:
                signal.signal(name, end)
        runner = Runner(program, options["seconds"])
        lab = listen(options["port"], Page(HERE, data), runner)
        address = lab.address + (f"#{fragment}" if fragment else "")
        print(address, flush=True)
        # (without a display a browser of the terminal would come, which runs no scripts)
        displays = map(os.environ.get, ("DISPLAY", "WAYLAND_DISPLAY", "BROWSER"))
        if options["browser"] and any(displays):
            threading.Thread(target=webbrowser.open, args=(address,), daemon=True).start()
        lab.serve_forever(poll_interval=0.2)
    except KeyboardInterrupt:
        print(file=sys.stderr)
    finally:
        for name in ends:
            signal.signal(name, signal.SIG_IGN)
        if runner:
            runner.close()


def main(words):
    if any(it in ("-h", "--help") for it in words):
        print(__doc__, end="")
        return 0
    try:
        serve(read_options(words))
    except Failed as why:
        print(f"lab: {why}", file=sys.stderr)
        return why.status
    except OSError as why:
        print(f"lab: {why}", file=sys.stderr)
        return 1
    return 0


if __name__ == "__main__":
    sys.exit(main(sys.argv[1:]))
