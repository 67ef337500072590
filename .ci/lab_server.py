"""What the tests of the lab share: a lab that is started, requests, and processes that it runs."""
import http.client
import json
import os
import re
import signal
import subprocess
import tempfile
import time

TOP = os.path.dirname(os.path.dirname(os.path.realpath(__file__)))
PROGRAM = os.path.realpath(os.environ.get("ROUNDC_PROGRAM") or f"{TOP}/dist/roundc")
ENDS = 10


class Failed(Exception):
    """Something that isn't as it has to be; its text says what."""


def expect(what, wanted, came):
    if wanted != came:
        raise Failed(f"{what}: {came!r} instead of {wanted!r}")


def until(what, test, seconds=ENDS):
    """Waits until a test holds."""
    ends = time.monotonic() + seconds
    while not test():
        if time.monotonic() > ends:
            raise Failed(f"{what} doesn't come within {seconds} s")
        time.sleep(0.02)


def is_alive(pid):
    """Whether a process runs; one that only waits to be read by its parent doesn't."""
    try:
        with open(f"/proc/{pid}/stat", encoding="utf-8", errors="replace") as file:
            return file.read().rpartition(")")[2].split()[0] not in "ZX"
    except (FileNotFoundError, ProcessLookupError):
        return False


def children_of(pid):
    """Returns the processes that one has started and that run."""
    found = []
    for name in os.listdir("/proc"):
        if not name.isdigit():
            continue
        try:
            with open(f"/proc/{name}/stat", encoding="utf-8", errors="replace") as file:
                parent = int(file.read().rpartition(")")[2].split()[1])
        except (OSError, ValueError):
            continue
        if parent == pid and is_alive(int(name)):
            found.append(int(name))
    return found


class Lab:
    """A lab that runs, with a program that notes each of its calls."""

    def __init__(self, *words, port=None):
        self.room = tempfile.mkdtemp(prefix="roundc-lab-test-")
        self.log = f"{self.room}/log"
        program = f"{self.room}/roundc"
        with open(program, "w", encoding="utf-8") as file:
            file.write(f'#!/bin/sh\necho "$@" >>{self.log}\nexec {PROGRAM} "$@"\n')
        os.chmod(program, 0o755)
        os.mkdir(f"{self.room}/tmp")
        places = ["--port", str(port)] if port else []
        self.ran = subprocess.Popen(
            [f"{TOP}/lab", "--no-browser", *places, *words], stdin=subprocess.DEVNULL,
            stdout=subprocess.PIPE, stderr=subprocess.PIPE, text=True,
            env={**os.environ, "ROUNDC_PROGRAM": program, "TMPDIR": f"{self.room}/tmp"})
        self.address = self.ran.stdout.readline().strip()
        found = re.fullmatch(r"http://127\.0\.0\.1:(\d+)/([\w-]+)/(?:#(.*))?", self.address)
        if not found:
            self.close()
            raise Failed(f"the lab prints {self.address!r}")
        self.port, self.token, self.fragment = int(found[1]), found[2], found[3]

    def __enter__(self):
        return self

    def __exit__(self, *_):
        self.close()

    def close(self):
        self.stop(signal.SIGTERM)
        subprocess.run(["rm", "-rf", self.room], check=False)

    def stop(self, name):
        """Ends the lab by a signal, and returns its status."""
        if self.ran.poll() is None:
            self.ran.send_signal(name)
        try:
            status = self.ran.wait(ENDS)
        except subprocess.TimeoutExpired:
            self.ran.kill()
            raise Failed(f"the lab doesn't end by {name.name}") from None
        for each in (self.ran.stdout, self.ran.stderr):
            each.close()
        return status

    def calls(self):
        """Returns how many calls of the program there were."""
        try:
            with open(self.log, encoding="utf-8") as file:
                return len(file.readlines())
        except FileNotFoundError:
            return 0

    def left(self):
        """Returns what is in its folder for temporary files."""
        return os.listdir(f"{self.room}/tmp")

    def connect(self):
        return http.client.HTTPConnection("127.0.0.1", self.port, timeout=60)

    def ask(self, method="GET", path=None, body=None, fields=None, drop=()):
        """Returns the status, the fields and the text of an answer."""
        connection = self.connect()
        given = {"Host": f"127.0.0.1:{self.port}", "Origin": f"http://127.0.0.1:{self.port}",
                 "Content-Type": "application/json", **(fields or {})}
        path = path if path is not None else f"/{self.token}/{'' if method == 'GET' else 'run'}"
        try:
            connection.putrequest(method, path, skip_host=True, skip_accept_encoding=True)
            for name, value in given.items():
                if name not in drop:
                    connection.putheader(name, value)
            if body is not None and "Content-Length" not in given:
                connection.putheader("Content-Length", str(len(body)))
            connection.endheaders()
            if body is not None:
                try:
                    connection.send(body)
                except (BrokenPipeError, ConnectionResetError):
                    pass                   # refused before it was read
            reply = connection.getresponse()
            return reply.status, reply.headers, reply.read()
        finally:
            connection.close()

    def command(self, words, files=None, **others):
        """Returns the status of the answer, and what it says."""
        body = json.dumps({"words": words, "files": files or {}}).encode()
        status, _, text = self.ask("POST", body=body, **others)
        return status, json.loads(text) if status == 200 else text.decode()

    def begin(self, words, files, watch=False):
        """Asks for a command, and returns the connection without waiting for the answer."""
        connection = self.connect()
        body = json.dumps({"words": words, "files": files, "watch": watch}).encode()
        connection.request("POST", f"/{self.token}/run", body, {
            "Host": f"127.0.0.1:{self.port}", "Content-Type": "application/json"})
        return connection
