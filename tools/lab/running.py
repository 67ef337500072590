"""One command of roundc at a time: in a folder of its own, with limits, and ended with its page."""
import errno
import os
import pty
import re
import resource
import select
import shutil
import subprocess
import tempfile
import threading
import time

from asking import MADE, is_search

MAX_PROCESSES = 4
# Searches leave one process to the grid.
MAX_SEARCHES = 3
MAX_OUTPUT = 4 << 20
MAX_MEMORY = 2 << 30
# How long a command that isn't a search may take, and wait for one of the processes.
COMMAND_SECONDS = 20
WAIT_SECONDS = 5
ESCAPES = re.compile(r"\x1b\[[?\d;]*[A-Za-z]")


class Busy(Exception):
    """All processes are taken."""


class Gone(Exception):
    """The page that asked doesn't wait any more."""


def is_gone(connection):
    """Whether the other end of a connection has closed it."""
    watched = select.poll()
    watched.register(connection, select.POLLRDHUP)
    return bool(watched.poll(0))


class Runner:
    """Runs commands of one program, at most four at once."""

    def __init__(self, program, search_seconds):
        self.program = program
        self.search_seconds = search_seconds
        self.room = tempfile.mkdtemp(prefix="roundc-lab-")
        self.lock = threading.Condition()
        self.running = {}
        self.is_over = False
        # `setpriv` has the kernel end a command if the lab itself is killed.
        self.prefix = ["setpriv", "--pdeathsig", "KILL", "--"]
        try:
            subprocess.run([*self.prefix, "true"], check=True, stdin=subprocess.DEVNULL,
                           stdout=subprocess.DEVNULL, stderr=subprocess.DEVNULL)
        except (OSError, subprocess.CalledProcessError):
            self.prefix = []

    def close(self):
        """Ends all commands and removes their folders."""
        with self.lock:
            self.is_over = True
            for ran in self.running.values():
                if ran is not None:
                    ran.kill()
        shutil.rmtree(self.room, ignore_errors=True)

    def enter(self, key, search, connection):
        """Takes one of the places, or waits for one."""
        end = time.monotonic() + WAIT_SECONDS
        with self.lock:
            while True:
                if self.is_over or is_gone(connection):
                    raise Gone
                searches = sum(1 for it in self.running if it[1])
                if len(self.running) < MAX_PROCESSES and not (search and searches >= MAX_SEARCHES):
                    self.running[key] = None
                    return
                if search or time.monotonic() > end:
                    raise Busy
                self.lock.wait(0.1)

    def leave(self, key):
        with self.lock:
            del self.running[key]
            self.lock.notify_all()

    def run(self, words, files, connection, progress):
        """Runs a command, and returns what the page is answered."""
        search = is_search(words)
        key = (object(), search)
        self.enter(key, search, connection)
        folder = None
        try:
            folder = tempfile.mkdtemp(dir=self.room)
            for name, text in files.items():
                with open(f"{folder}/{name}", "wb") as file:
                    file.write(text)
            seconds = self.search_seconds if search else COMMAND_SECONDS
            followed = Followed(self, key, words, folder, progress)
            answer = followed.until_end(connection, seconds)
            try:
                with open(f"{folder}/{MADE}", "rb") as file:
                    answer["made"] = file.read(MAX_OUTPUT).decode()
            except FileNotFoundError:
                pass
            return answer
        finally:
            self.leave(key)
            if folder:
                shutil.rmtree(folder, ignore_errors=True)

    def start(self, key, words, folder, stderr):
        """Starts the command, unless the lab is about to end."""
        environment = {"PATH": os.environ.get("PATH", os.defpath), "TERM": "xterm"}
        with self.lock:
            if self.is_over:
                raise Gone
            ran = subprocess.Popen([*self.prefix, self.program, *words], cwd=folder,
                                   env=environment, stdin=subprocess.DEVNULL,
                                   stdout=subprocess.PIPE, stderr=stderr)
            self.running[key] = ran
        limits = [(resource.RLIMIT_AS, MAX_MEMORY), (resource.RLIMIT_CORE, 0),
                  (resource.RLIMIT_FSIZE, MAX_OUTPUT),
                  (resource.RLIMIT_CPU, int(self.search_seconds) + 5)]
        for kind, most in limits:
            try:
                resource.prlimit(ran.pid, kind, (most, most))
            except (OSError, ValueError):      # it has ended, or the system has a lower limit
                pass
        return ran


class Followed:
    """A command that was started, with what it has printed so far."""

    def __init__(self, runner, key, words, folder, progress):
        self.progress = progress
        # A search says on a terminal how far it has come.
        above, below = pty.openpty() if progress else os.pipe()
        try:
            self.ran = runner.start(key, words, folder, below)
        except BaseException:
            os.close(above)
            raise
        finally:
            os.close(below)
        self.errors = above
        self.texts = {self.ran.stdout.fileno(): b"", above: b""}

    def until_end(self, connection, seconds):
        """Reads what the command prints until it ends, is too long or is no longer wanted."""
        ends = time.monotonic() + seconds
        watched = select.poll()
        watched.register(connection, select.POLLRDHUP)
        left = set(self.texts)
        for each in left:
            watched.register(each, select.POLLIN)
        stopped = None
        try:
            while left and not stopped:
                came = watched.poll(max(0, ends - time.monotonic()) * 1000)
                if not came:
                    stopped = "time"
                for each, _ in came:
                    if each == connection.fileno():
                        raise Gone
                    if not self.take(each):
                        left.discard(each)
                        watched.unregister(each)
                if max(map(len, self.texts.values())) > MAX_OUTPUT:
                    stopped = "output"
                self.tell_progress()
        finally:
            if left:
                self.ran.kill()
            status = self.ran.wait()
            self.ran.stdout.close()
            os.close(self.errors)
        out, err = self.texts.values()
        answer = {"status": status, "out": out[:MAX_OUTPUT].decode(errors="replace"),
                  "err": err[:MAX_OUTPUT].decode(errors="replace")}
        if stopped:
            answer["stopped"] = stopped
            answer["limit"] = seconds if stopped == "time" else MAX_OUTPUT
        return answer

    def take(self, each):
        """Reads a piece, and returns whether there was one."""
        try:
            piece = os.read(each, 1 << 16)
        except OSError as why:
            if why.errno != errno.EIO:         # a terminal that nobody writes to any more
                raise
            piece = b""
        self.texts[each] += piece
        return bool(piece)

    def tell_progress(self):
        """Hands on the last line that a search has written on its terminal, and forgets it."""
        if not self.progress or b"\r" not in self.texts[self.errors]:
            return
        lines = ESCAPES.sub("", self.texts[self.errors].decode(errors="replace")).split("\r")
        shown = [it for it in lines if " states" in it and "\n" not in it]
        if shown:
            self.texts[self.errors] = b""
            self.progress(shown[-1])
