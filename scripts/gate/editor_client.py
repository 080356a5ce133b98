"""A client of the language server over pipes, for scripts/editor_cases.py and scripts/measure/keystrokes.py."""
import json
import os
import select
import subprocess
import time

SECONDS = 300


def frame(message):
    """A message in its frame; bytes are taken as they are."""
    body = message if isinstance(message, bytes) else json.dumps(message, ensure_ascii=False).encode()
    return b"Content-Length: %d\r\n\r\n" % len(body) + body


def request(number, method, params=None):
    return {"jsonrpc": "2.0", "id": number, "method": method, **({} if params is None else {"params": params})}


def note(method, params=None):
    return {"jsonrpc": "2.0", "method": method, **({} if params is None else {"params": params})}


def document(uri, text, version=1):
    return {"textDocument": {"uri": uri, "languageId": "cedar", "version": version, "text": text}}


def change(uri, text, version):
    return {"textDocument": {"uri": uri, "version": version}, "contentChanges": [{"text": text}]}


def position(uri, line, character):
    return {"textDocument": {"uri": uri}, "position": {"line": line, "character": character}}


class NoAnswer(Exception):
    """Nothing came in time, or the output has ended."""


class Client:
    """A server, and what it has sent that nobody has taken yet."""

    def __init__(self, program, env=None):
        self.process = subprocess.Popen([str(program)], stdin=subprocess.PIPE, stdout=subprocess.PIPE, stderr=subprocess.PIPE, env=env)
        self.number, self.taken = 0, b""

    def __enter__(self):
        return self

    def __exit__(self, *_):
        self.process.kill()
        self.process.wait()
        for stream in (self.process.stdin, self.process.stdout, self.process.stderr):
            try:
                stream.close()
            except OSError:
                pass

    def raw(self, data):
        self.process.stdin.write(data)
        self.process.stdin.flush()

    def send(self, message):
        self.raw(frame(message))

    def fill(self, seconds):
        """Takes what comes within so many seconds. Whether something came."""
        if not select.select([self.process.stdout], [], [], seconds)[0]:
            return False
        data = os.read(self.process.stdout.fileno(), 1 << 16)
        self.taken += data
        return bool(data)

    def read(self, seconds=SECONDS):
        """The next message."""
        end = time.monotonic() + seconds
        while True:
            head, blank, rest = self.taken.partition(b"\r\n\r\n")
            if blank:
                size = int(head.split(b":")[1])
                if len(rest) >= size:
                    self.taken = rest[size:]
                    return json.loads(rest[:size])
            if not self.fill(max(0, end - time.monotonic())):
                raise NoAnswer(f"no message in {seconds} s; the server has ended with {self.process.poll()}")

    def ask(self, method, params=None):
        """The answer to a request. What is told in between is dropped."""
        self.number += 1
        self.send(request(self.number, method, params))
        while True:
            message = self.read()
            if message.get("id") == self.number:
                return message

    def tell(self, method, params=None):
        self.send(note(method, params))

    def start(self, options=None):
        answer = self.ask("initialize", {"processId": None, "rootUri": None, "capabilities": {}, "initializationOptions": options})
        self.tell("initialized", {})
        return answer

    def published(self, uri):
        """The next diagnostics of a document."""
        while True:
            message = self.read()
            if message.get("method") == "textDocument/publishDiagnostics" and message["params"]["uri"] == uri:
                return message["params"]["diagnostics"]

    def open(self, uri, text, version=1):
        self.tell("textDocument/didOpen", document(uri, text, version))
        return self.published(uri)

    def change(self, uri, text, version):
        self.tell("textDocument/didChange", change(uri, text, version))
        return self.published(uri)

    def end(self):
        """The status of a server that is shut down."""
        self.ask("shutdown")
        self.tell("exit")
        return self.process.wait(SECONDS)

    def memory(self):
        """The kB of memory that the server holds."""
        with open(f"/proc/{self.process.pid}/status", encoding="ascii") as lines:
            return next(int(line.split()[1]) for line in lines if line.startswith("VmRSS"))
