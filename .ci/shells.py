"""Types into shells, as somebody at a terminal does, and tells what became of the line."""
import os
import pty
import re
import select
import subprocess
import time

LIMIT = 20  # seconds that a shell may take for a line
# The command that is typed shows its words, so that the line is seen that a shell has made.
SHOWS = "roundc() { printf '<%s>' \"$@\" .; echo; }"
ASKED = re.compile(r"((?:<[^<>\r\n]*>)+)\r")


class Shell:
    """A shell on a terminal of its own, in a folder."""

    def __init__(self, words, folder, environment):
        self.process, self.terminal = pty.fork()
        if self.process == 0:
            os.chdir(folder)
            os.execvpe(words[0], words, {**os.environ, "TERM": "dumb", **environment})
        self.said = ""

    def wait(self, form):
        """Waits until what was said has a form, and returns it; '' if it doesn't come."""
        until = time.monotonic() + LIMIT
        while not (found := form.search(self.said)):
            ready, _, _ = select.select([self.terminal], [], [], max(0, until - time.monotonic()))
            try:
                self.said += os.read(self.terminal, 65536).decode(errors="replace") if ready else ""
            except OSError:
                return ""
            if time.monotonic() >= until:
                return ""
        self.said = self.said[found.end() :]
        return found[1]

    def words(self, keys):
        """Types keys and the end of a line, and returns the words that the command was given."""
        os.write(self.terminal, keys.encode() + b"\r")
        found = re.findall(r"<([^<>]*)>", self.wait(ASKED))
        return [part for it in found[:-1]
                for part in (it.split("=", 1) if it.startswith("--") else [it])]

    def end(self):
        os.close(self.terminal)
        os.waitpid(self.process, 0)


def bash(file, folder):
    shell = Shell(["bash", "--norc", "--noprofile", "-i"], folder, {"PS1": "> "})
    shell.words(f"source '{file}'; bind 'set enable-bracketed-paste off'; {SHOWS}; roundc")
    return shell


def zsh(file, folder):
    shell = Shell(["zsh", "-f", "-i"], folder, {"PS1": "> "})
    shell.words(f"fpath=('{os.path.dirname(file)}' $fpath); autoload -Uz compinit; compinit -u -D; "
                f"{SHOWS}; roundc")
    return shell


def bash_list(file, folder, words):
    """Returns what bash's completion of a line offers, by a call of its function."""
    line = " ".join(words)
    script = (f"source '{file}'; COMP_WORDS=({' '.join(map(repr, words))}); COMP_LINE={line!r}; "
              f"COMP_POINT=${{#COMP_LINE}}; COMP_CWORD={len(words) - 1}; "
              f"_roundc roundc {words[-1]!r} {words[-2]!r}; printf '%s\\n' \"${{COMPREPLY[@]}}\"")
    ran = subprocess.run(["bash", "-c", script], cwd=folder, capture_output=True, text=True,
                         check=False)
    return (ran.stdout + ran.stderr).split("\n")[:-1]


def fish_list(folder, environment, line):
    """Returns what fish offers for a line, without the descriptions."""
    ran = subprocess.run(["fish", "-c", f"complete -C {line!r}"], cwd=folder, capture_output=True,
                         text=True, env={**os.environ, **environment}, check=False)
    return [it.split("\t")[0] for it in (ran.stdout + ran.stderr).split("\n")[:-1]]
