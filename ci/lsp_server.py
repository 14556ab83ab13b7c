"""A built program that runs as a language server, for the scripts that talk to it: ci/lsp.py, audit/lsp-fuzz, audit/lsp-speed.

A message is a body of JSON in a frame: `Content-Length: N`, an empty line, and N bytes.
"""

import json
import queue
import re
import subprocess
import threading

# How long an answer may take, in seconds.
SECONDS = 60

HEAD = re.compile(rb"Content-Length: (0|[1-9][0-9]*)\r\n\r\n")

# The longest head that a server is read to.
LONGEST_HEAD = 100


class Broken(Exception):
    """A server doesn't do what every server has to do."""


def framed(body):
    """A body of bytes in its frame."""
    return b"Content-Length: %d\r\n\r\n%s" % (len(body), body)


def body_of(message):
    """A message as the bytes of its JSON, as short as may be."""
    return json.dumps(message, separators=(",", ":"), ensure_ascii=False).encode("utf-8", "surrogatepass")


def request(number, method, **params):
    return {"jsonrpc": "2.0", "id": number, "method": method, "params": params}


def notification(method, **params):
    return {"jsonrpc": "2.0", "method": method, "params": params}


def opened(uri, text, version=1):
    document = {"uri": uri, "languageId": "ringcheck", "version": version, "text": text}
    return notification("textDocument/didOpen", textDocument=document)


def changed(uri, text, version):
    document = {"uri": uri, "version": version}
    return notification("textDocument/didChange", textDocument=document, contentChanges=[{"text": text}])


def frames_in(output):
    """The bodies in an output that has been read to its end."""
    bodies, at = [], 0
    while at < len(output):
        head = HEAD.match(output, at)
        end = head.end() + int(head[1]) if head else 0
        if not head or end > len(output):
            raise Broken(f"no whole frame begins here: {output[at : at + 60]!r}")
        bodies.append(output[head.end() : end])
        at = end
    return bodies


class Server:
    """A server under way. Its frames are read as they come, so it never waits for this client."""

    def __init__(self, program):
        pipes = {"stdin": subprocess.PIPE, "stdout": subprocess.PIPE, "stderr": subprocess.PIPE}
        self.process = subprocess.Popen([program, "lsp"], **pipes)
        self.bodies = queue.SimpleQueue()
        self.errors = b""
        self.readers = [threading.Thread(target=read, daemon=True) for read in (self.read_bodies, self.read_errors)]
        for reader in self.readers:
            reader.start()

    def __enter__(self):
        return self

    def __exit__(self, *_):
        self.process.kill()
        self.process.wait()

    def read_bodies(self):
        """Puts each body into the queue, and at the end None, or what is wrong."""
        try:
            while (body := self.read_body()) is not None:
                self.bodies.put(body)
            self.bodies.put(None)
        except Broken as why:
            self.bodies.put(why)

    def read_body(self):
        head = b""
        while not head.endswith(b"\r\n\r\n"):
            byte = self.process.stdout.read(1)
            if not byte and not head:
                return None
            head += byte
            if not byte or len(head) > LONGEST_HEAD:
                raise Broken(f"the server's head is {head!r}")
        found = HEAD.fullmatch(head)
        if not found:
            raise Broken(f"the server's head is {head!r}")
        body = self.process.stdout.read(int(found[1]))
        if len(body) < int(found[1]):
            raise Broken(f"the server's body is cut: {body[-60:]!r}")
        return body

    def read_errors(self):
        self.errors = self.process.stderr.read()

    def write(self, data):
        """Writes bytes. A server that has ended may not read them."""
        try:
            self.process.stdin.write(data)
            self.process.stdin.flush()
        except BrokenPipeError:
            pass

    def send(self, message):
        self.write(framed(body_of(message)))

    def body(self, seconds=SECONDS):
        """The next body, or None where the server has ended."""
        try:
            body = self.bodies.get(timeout=seconds)
        except queue.Empty:
            raise Broken(f"no answer comes within {seconds} s") from None
        if isinstance(body, Broken):
            raise body
        return body

    def message(self, seconds=SECONDS):
        """The next message."""
        body = self.body(seconds)
        if body is None:
            raise Broken(f"the server has ended, with status {self.process.wait()}: {self.end()[1]!r}")
        return json.loads(body)

    def answer(self, number, seconds=SECONDS):
        """The answer to a request. What comes before it is left out."""
        while (message := self.message(seconds)).get("id") != number or "method" in message:
            pass
        return message

    def asked(self, number, method, **params):
        """The result of a request, or its error."""
        self.send(request(number, method, **params))
        answer = self.answer(number)
        return answer["result"] if "result" in answer else answer["error"]

    def close(self):
        """Says that no more bytes come."""
        try:
            self.process.stdin.close()
        except BrokenPipeError:
            pass

    def end(self, seconds=SECONDS):
        """Its status and what it wrote on standard error, after its input's end."""
        self.close()
        try:
            status = self.process.wait(seconds)
        except subprocess.TimeoutExpired:
            raise Broken(f"it hasn't ended {seconds} s after its input") from None
        for reader in self.readers:
            reader.join(seconds)
        return status, self.errors
