"""The lab's server: one page on 127.0.0.1, and the commands that it may ask for."""
import base64
import hashlib
import hmac
import json
import os
import re
import threading
from http.server import BaseHTTPRequestHandler, ThreadingHTTPServer

from asking import Refused, read_files, read_words
from running import Busy, Gone

MAX_BODY = 1 << 20
MAX_CONNECTIONS = 32
IDLE_SECONDS = 30
FORMS = ("application/x-www-form-urlencoded", "multipart/form-data", "text/plain")
COMMON = {
    "Cache-Control": "no-store",
    "X-Content-Type-Options": "nosniff",
    "X-Frame-Options": "DENY",
    "Referrer-Policy": "no-referrer",
    "Cross-Origin-Resource-Policy": "same-origin",
    "Cross-Origin-Opener-Policy": "same-origin",
}
NOTHING = "default-src 'none'; frame-ancestors 'none'"


def sum_of(text):
    return "'sha256-" + base64.b64encode(hashlib.sha256(text.encode()).digest()).decode() + "'"


def read_text(path):
    with open(path, encoding="utf-8") as file:
        return file.read()


class Page:
    """The page's text, made of its parts, and the policy that allows these and nothing else."""

    def __init__(self, folder, data):
        page = read_text(f"{folder}/page.html")
        style = read_text(f"{folder}/page.css")
        names = re.findall(r"^// part (\S+\.js)$", page, re.M)
        script = "".join(read_text(f"{folder}/{it}") for it in names)
        # (no text of the data can end the script)
        told = json.dumps(data).replace("<", "\\u003c")
        script = f"'use strict';\nconst DATA = {told};\n{script}"
        page = re.sub(r"(?:^// part .*\n)+", lambda _: script, page, flags=re.M)
        page = page.replace("/* style */", style)
        inside = [re.search(rf"<{it}>(.*?)</{it}>", page, re.S)[1] for it in ("script", "style")]
        self.policy = (
            f"default-src 'none'; script-src {sum_of(inside[0])}; style-src {sum_of(inside[1])}; "
            "connect-src 'self'; img-src blob: data:; base-uri 'none'; form-action 'none'; "
            "frame-ancestors 'none'; require-trusted-types-for 'script'; trusted-types 'none'")
        self.text = page.encode()


class Handler(BaseHTTPRequestHandler):
    """Answers one connection's requests."""

    protocol_version = "HTTP/1.1"
    timeout = IDLE_SECONDS
    disable_nagle_algorithm = True
    server_version = "roundc-lab"
    sys_version = ""

    def log_message(self, *_):
        """The terminal shows the address alone."""

    def send_error(self, code, message=None, explain=None):
        """What the library finds wrong with a request is answered in plain words too."""
        self.refuse(code, message or "not a request that is served")

    def begin(self, status, kind, policy=NOTHING, length=None):
        self.send_response(status)
        fields = {"Content-Type": kind, "Content-Security-Policy": policy, **COMMON}
        if length is None:
            fields["Transfer-Encoding"] = "chunked"
        else:
            fields["Content-Length"] = str(length)
        if status >= 400:
            fields["Connection"] = "close"
            self.close_connection = True
        for name, value in fields.items():
            self.send_header(name, value)
        self.end_headers()

    def reply(self, status, kind, body, policy=NOTHING):
        self.begin(status, kind, policy, len(body))
        if self.command != "HEAD":
            self.wfile.write(body)

    def refuse(self, status, words):
        self.reply(status, "text/plain; charset=utf-8", f"roundc lab: {words}\n".encode())

    def is_own(self):
        """Whether the request comes from the lab's own page, and asks the lab by its own name."""
        lab = self.server
        hosts, origins = self.headers.get_all("Host", []), self.headers.get_all("Origin", [])
        site = self.headers.get("Sec-Fetch-Site", "same-origin")
        token = self.path[1:].partition("/")[0]
        if len(hosts) != 1 or hosts[0] not in lab.names:
            self.refuse(403, "this isn't the host that it answers to")
        elif any(it not in lab.origins for it in origins):
            self.refuse(403, "another page may not ask")
        elif self.command != "GET" and site != "same-origin":
            self.refuse(403, "another page may not ask")
        elif not hmac.compare_digest(token.encode(), lab.token.encode()):
            self.refuse(403, "the address has no token, or another lab's. The terminal in which "
                        "./lab runs shows the right one. A link of another lab is opened by "
                        "./lab LINK, or by Share in this lab's page")
        else:
            return True
        return False

    def do_GET(self):
        if self.is_own():
            if self.path != f"/{self.server.token}/":
                return self.refuse(404, "there is no such page")
            page = self.server.page
            self.reply(200, "text/html; charset=utf-8", page.text, page.policy)
        return None

    def do_POST(self):
        if not self.is_own():
            return None
        kind = self.headers.get("Content-Type", "").strip().lower()
        if kind != "application/json":
            is_form = kind.partition(";")[0].strip() in FORMS
            return self.refuse(403 if is_form else 415, "the content has to be application/json")
        if self.path != f"/{self.server.token}/run":
            return self.refuse(404, "there is no such page")
        length = self.headers.get("Content-Length", "")
        if "Transfer-Encoding" in self.headers or not re.fullmatch(r"[0-9]{1,12}", length):
            return self.refuse(411, "the content's length is missing")
        if int(length) > MAX_BODY:
            return self.refuse(413, f"the request is longer than {MAX_BODY} bytes")
        try:
            asked = json.loads(self.rfile.read(int(length)).decode())
            if not isinstance(asked, dict):
                raise Refused("it has to be an object")
            files = read_files(asked)
            words = read_words(asked, files)
        except (ValueError, RecursionError):
            return self.refuse(400, "the request isn't JSON")
        except Refused as why:
            return self.refuse(400, str(why))
        return self.answer(words, files, asked.get("watch") is True)

    def answer(self, words, files, watch):
        """Runs a command. One that is watched is answered line by line as it goes on."""
        lines = []

        def progress(text):
            if not lines:
                self.begin(200, "application/x-ndjson")
            lines.append(text)
            self.chunk({"progress": text})

        try:
            answer = self.server.runner.run(words, files, self.connection,
                                            progress if watch else None)
            if lines:
                self.chunk(answer)
                self.wfile.write(b"0\r\n\r\n")
            else:
                self.reply(200, "application/json", json.dumps(answer).encode())
        except Busy:
            self.refuse(503, "four commands are running already; stop a search, or wait")
        except (Gone, ConnectionError):
            self.close_connection = True
        except OSError as why:
            self.close_connection = True
            if not lines:
                self.refuse(500, f"the command can't be run: {why.strerror}")

    def chunk(self, value):
        body = json.dumps(value).encode() + b"\n"
        self.wfile.write(b"%x\r\n%s\r\n" % (len(body), body))


class Lab(ThreadingHTTPServer):
    """The server, which listens on this machine alone."""

    daemon_threads = True
    request_queue_size = 64

    def __init__(self, port, token, page, runner):
        self.token, self.page, self.runner = token, page, runner
        self.places = threading.BoundedSemaphore(MAX_CONNECTIONS)
        super().__init__(("127.0.0.1", port), Handler)
        self.names = [f"127.0.0.1:{self.server_port}", f"localhost:{self.server_port}"]
        self.origins = [f"http://{it}" for it in self.names]
        self.address = f"{self.origins[0]}/{token}/"

    def server_bind(self):
        """Binds without a look for the machine's name, which may ask the network."""
        self.socket.setsockopt(1, 2, 1)        # SOL_SOCKET, SO_REUSEADDR
        self.socket.bind(self.server_address)
        self.server_address = self.socket.getsockname()
        self.server_name, self.server_port = "127.0.0.1", self.server_address[1]

    def process_request(self, request, client_address):
        if self.places.acquire(blocking=False):
            super().process_request(request, client_address)
        else:
            self.shutdown_request(request)

    def process_request_thread(self, request, client_address):
        try:
            super().process_request_thread(request, client_address)
        finally:
            self.places.release()

    def handle_error(self, request, client_address):
        """A connection that breaks is no news; anything else is."""
        import sys
        if not isinstance(sys.exc_info()[1], (ConnectionError, TimeoutError)):
            super().handle_error(request, client_address)
