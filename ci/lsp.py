#!/usr/bin/env python3
"""Talks to a built program as editors do, and compares what it says, byte by byte, with the sessions of examples/lsp.

usage: ci/lsp.py PROGRAM [FILE..] [--write]

Without FILE the sessions are those of examples/lsp/*.session. A file has one or more of them:

    session NAME             a server is started
    > JSON                   a message to it, whose frame is made
    >> BYTES                 bytes to it as they are; `\\r`, `\\n`, `\\\\` and `\\xHH` are bytes
    >* N BYTE                this byte, N times
    < JSON                   a message from it, in its frame
    ! LINE                   a line of its standard error
    status N                 with which it ends

A line that begins with `#` is a comment, and empty lines are passed over. The sessions that are named by an editor have the
messages that this editor sent, byte for byte, but for names of folders and the number of its process.

Each session is held three times: with all bytes at once; message by message, each when what stands above it has come; and
in pieces of seven bytes. With the messages of the editors' sessions more are held:

- each message with each of its parts left out, and with values of each other type in its place: the server has to go on,
  to answer each request once and nothing else, and to say of another document what it said before;
- each message cut, in its head and in its body: the server has to end by itself, with status 1, and to say so.

Then audit/lsp-fuzz sends some thousand messages that are made at random.

With --write the lines that come from the server are written as the program says them now: read the difference. Otherwise
it prints what differs, and how many sessions and messages there were. The status is 1 where something is wrong, and 2 where
a file isn't as it should be.
"""

import json
import os
import re
import subprocess
import sys
from collections import Counter
from concurrent.futures import ThreadPoolExecutor
from dataclasses import dataclass, field
from pathlib import Path

from lsp_server import Broken, Server, body_of, framed, notification, opened, request
from lsp_variants import is_request, variants, wrong_answers

TOP = Path(__file__).resolve().parent.parent
FOLDER = TOP / "examples" / "lsp"

# The sessions of editors.
EDITORS = ("vim", "neovim", "vscode")

# What the whole test sends at random.
FUZZ = [TOP / "audit" / "lsp-fuzz", "--count", "5000", "--seed", "1"]

# The sizes of pieces, and up to how many bytes a session is cut into such.
PIECE = 7
MOST_PIECES = 1 << 20

ESCAPE = re.compile(rb"\\(?:x([0-9a-f]{2})|([rn\\]))")
NAMED = {b"r": b"\r", b"n": b"\n", b"\\": b"\\"}

# A document that no session names, and what is asked of it.
PROBE = "file:///probe.rc"
PROBED = "ringcheck 1\nring 1\nthread t0 holds {\nr = submit\n}\n"
PROBING = {"textDocument": {"uri": PROBE}, "position": {"line": 3, "character": 4}}

# What is said where the input ends in a message.
CUT = "ringcheck: the input ends within a message\n"

# Each variant of these methods gets a server of its own. These values are tried there.
ALONE = ("initialize", "shutdown", "exit")
ALONE_VALUES = (None, 1, "x", [], {})


class Wrong(Exception):
    """A file of sessions isn't as it should be."""


@dataclass
class Part:
    """Bytes to the server, the number of their line, and the bodies that it answers with, with theirs."""

    line: int
    sent: bytes
    message: bytes = None
    bodies: list = field(default_factory=list)


@dataclass
class Session:
    """What goes to a server and comes from it."""

    place: str
    name: str
    parts: list = field(default_factory=list)
    errors: str = ""
    status: int = None

    def sent(self):
        return b"".join(part.sent for part in self.parts)

    def messages(self):
        """The messages to the server."""
        return [json.loads(part.message) for part in self.parts if part.message]


def unescaped(source):
    return ESCAPE.sub(lambda found: bytes([int(found[1], 16)]) if found[1] else NAMED[found[2]], source)


def repeated(source):
    count, _, byte = source.partition(b" ")
    if not count.isdigit():
        raise Wrong("this names no number of times")
    return unescaped(byte) * int(count)


def read_line(session, line, number):
    """Takes a line of a file into a session."""
    word, _, rest = line.partition(b" ")
    if word == b">":
        session.parts.append(Part(number, framed(rest), rest))
    elif word == b">>":
        session.parts.append(Part(number, unescaped(rest)))
    elif word == b">*":
        session.parts.append(Part(number, repeated(rest)))
    elif word == b"<" and session.parts:
        session.parts[-1].bodies.append((number, rest))
    elif word == b"!":
        session.errors += rest.decode() + "\n"
    elif word == b"status" and rest.isdigit() and session.status is None:
        session.status = int(rest)
    else:
        raise Wrong(f"this is no line of a session: {line[:60]!r}")


def read_sessions(path):
    """The sessions of a file."""
    sessions = []
    for number, line in enumerate(path.read_bytes().split(b"\n"), 1):
        place = f"{os.path.relpath(path)}:{number}"
        try:
            if line.startswith(b"session "):
                sessions.append(Session(place, line[8:].decode()))
            elif line and not line.startswith(b"#"):
                if not sessions:
                    raise Wrong("this stands above the first session")
                read_line(sessions[-1], line, number)
        except Wrong as why:
            raise Wrong(f"{place}: {why}") from None
    return sessions


# ---- a session, as it stands


def told(server):
    """What comes from a server when its input has ended: its bodies, what is on standard error, and its status."""
    status, errors = server.end()
    bodies = []
    while (body := server.body()) is not None:
        bodies.append(body)
    return bodies, errors.decode("utf-8", "replace"), status


def held_in_pieces(program, data, size):
    """What a server says to bytes that come in pieces."""
    with Server(program) as server:
        for at in range(0, len(data), size):
            server.write(data[at : at + size])
        return told(server)


def held_one_by_one(program, session):
    """What it says where each message is sent when what stands above it has come."""
    with Server(program) as server:
        bodies = []
        for part in session.parts:
            server.write(part.sent)
            for _ in part.bodies:
                if (body := server.body()) is not None:
                    bodies.append(body)
        rest, errors, status = told(server)
    return bodies + rest, errors, status


def shown(body):
    return body.decode("utf-8", "replace")[:600]


def differences(session, came):
    """How what came differs from a session."""
    bodies, errors, status = came
    wanted = [pair for part in session.parts for pair in part.bodies]
    for (number, body), other in zip(wanted, bodies):
        if body != other:
            yield f"line {number}: wanted {shown(body)}\n    and came {shown(other)}"
            break
    else:
        if len(bodies) != len(wanted):
            more = [shown(body) for body in bodies[len(wanted) : len(wanted) + 1]]
            yield f"{len(wanted)} messages are wanted, and {len(bodies)} came; more: {more}"
    if errors != session.errors:
        yield f"standard error is wanted to be {session.errors!r}, and is {errors[:300]!r}"
    if status != session.status:
        yield f"the status is wanted to be {session.status}, and is {status}"


def wrong_session(program, session):
    """What is wrong in a session, held three times."""
    data = session.sent()
    ways = {"at once": lambda: held_in_pieces(program, data, len(data) or 1)}
    ways["one by one"] = lambda: held_one_by_one(program, session)
    if len(data) < MOST_PIECES:
        ways["in pieces"] = lambda: held_in_pieces(program, data, PIECE)
    for how, hold in ways.items():
        try:
            found = [*differences(session, hold())]
        except Broken as why:
            found = [str(why)]
        yield from (f"{session.place}: {session.name}, {how}: {what}" for what in found)


def written(program, path, sessions):
    """Writes the lines that come from the server as the program says them now."""
    answers = {}
    for session in sessions:
        known = 0
        for count in range(1, len(session.parts) + 1):
            data = b"".join(part.sent for part in session.parts[:count])
            bodies, errors, status = held_in_pieces(program, data, len(data) or 1)
            answers[session.parts[count - 1].line] = bodies[known:]
            known = len(bodies)
        end = [f"! {line}".encode() for line in errors.splitlines()] + [b"status %d" % status]
        answers[session.parts[-1].line] = (answers[session.parts[-1].line], end)
    lines = []
    for number, line in enumerate(path.read_bytes().split(b"\n"), 1):
        if line.split(b" ")[0] not in (b"<", b"!", b"status"):
            lines.append(line)
        made = answers.get(number, [])
        bodies, end = made if isinstance(made, tuple) else (made, [])
        lines += [b"< " + body for body in bodies] + end
    path.write_bytes(b"\n".join(lines))


# ---- messages that aren't as they should be


def probed(server, name):
    """What comes up to the answer to a probe, and its result."""
    server.send(request(name, "textDocument/hover", **PROBING))
    bodies = []
    while (message := server.message()).get("id") != name:
        bodies.append(message)
    return bodies, message.get("result")


def wrong_variants(program, session):
    """What is wrong in what a server says to the variants of the messages of a session, and how many there are."""
    found, count = [], 0
    with Server(program) as server:
        server.send(request("begin", "initialize", capabilities={}))
        server.send(notification("initialized"))
        server.send(opened(PROBE, PROBED))
        known = probed(server, "known")[1]
        for message in session.messages():
            if message["method"] in ALONE:
                continue
            server.send(message)
            probed(server, "before")
            for variant in variants(message):
                count += 1
                server.send(variant)
                bodies, result = probed(server, f"probe {count}")
                wrong = wrong_answers(variant, bodies)
                if result != known:
                    wrong = f"the probe is answered by {result}"
                if wrong:
                    found.append(f"{session.place}: to {shown(body_of(variant))}: {wrong}")
            server.send(message)
    return found, count


def wrong_alone(program, session, message, variant):
    """What is wrong with a server that is given a session with a variant of one of its messages."""
    sent = [variant if one is message else one for one in session.messages()]
    data = b"".join(framed(body_of(one)) for one in sent)
    bodies, errors, status = held_in_pieces(program, data, len(data))
    answers = Counter(json.dumps(told.get("id")) for body in bodies if "method" not in (told := json.loads(body)))
    wanted = Counter(json.dumps(one["id"]) for one in sent if is_request(one))
    if status not in (0, 1) or errors or wanted - answers or answers.total() > len(sent):
        said = f"the status is {status}, the answers are {dict(answers)}, and on standard error is {errors!r}"
        return [f"{session.place}: with {shown(body_of(variant))} {said}"]
    return []


def alone(session):
    """The variants that have a server of their own, with the messages in whose place they come."""
    for message in session.messages():
        if message["method"] in ALONE:
            yield from ((message, variant) for variant in variants(message, ALONE_VALUES))


# ---- frames that are cut


def cuts(session):
    """The beginnings of a session that end in a frame, with how many bodies come before."""
    before, known = b"", 0
    for part in session.parts:
        head = part.sent.index(b"\r\n\r\n") + 4
        for end in {1, head // 2, head - 1, head, (head + len(part.sent)) // 2, len(part.sent) - 1}:
            yield before + part.sent[:end], known
        before += part.sent
        known += len(part.bodies)


def wrong_cut(program, session, data, known):
    """What is wrong with a server whose input ends in a frame."""
    bodies, errors, status = held_in_pieces(program, data, len(data))
    if (len(bodies), errors, status) != (known, CUT, 1):
        said = f"{len(bodies)} messages, {errors!r} and status {status}"
        return [f"{session.place}: cut after {data[-40:]!r} there are {said}, and not {known}, {CUT!r} and 1"]
    return []


# ---- all of it


def tried(call, *words):
    """What a call finds wrong, and what is broken."""
    try:
        return [*call(*words)]
    except Broken as why:
        return [f"{words[1].place}: {words[1].name}: {why}: {words[2:]!r}"[:600]]


def all_wrong(program, sessions):
    """Prints what is wrong, and answers how much it is."""
    editors = [session for session in sessions if session.name in EDITORS]
    jobs = [(wrong_session, program, session) for session in sessions]
    jobs += [(wrong_alone, program, session, *pair) for session in editors for pair in alone(session)]
    jobs += [(wrong_cut, program, session, *pair) for session in editors for pair in cuts(session)]
    wrong, count = 0, len(jobs) - len(sessions)
    with ThreadPoolExecutor(os.cpu_count()) as pool:
        for found in pool.map(lambda job: tried(*job), jobs):
            print("".join(f"{line}\n" for line in found), end="", flush=True)
            wrong += bool(found)
    for session in editors:
        try:
            found, more = wrong_variants(program, session)
        except Broken as why:
            found, more = [f"{session.place}: {why}"], 1
        print("".join(f"{line}\n" for line in found[:20]), end="", flush=True)
        wrong += len(found)
        count += more
    print(f"{len(sessions)} sessions and {count} messages that aren't as they should be, {wrong} wrong", flush=True)
    return wrong


def main():
    words = [word for word in sys.argv[1:] if word != "--write"]
    if not words:
        sys.exit(__doc__)
    program = Path(words[0]).resolve()
    paths = [Path(word) for word in words[1:]] or sorted(FOLDER.glob("*.session"))
    try:
        files = {path: read_sessions(path) for path in paths}
    except (Wrong, OSError, UnicodeDecodeError) as why:
        print(why, file=sys.stderr)
        return 2
    if "--write" in sys.argv:
        for path, sessions in files.items():
            written(program, path, sessions)
        return 0
    sessions = [session for each in files.values() for session in each]
    if not sessions:
        print("there is no session", file=sys.stderr)
        return 2
    wrong = all_wrong(program, sessions)
    if wrong:
        print("if it should be so, ci/lsp.py PROGRAM --write writes what the server says into the sessions", file=sys.stderr)
    ran = 0 if words[1:] else subprocess.run([FUZZ[0], program, *FUZZ[1:]]).returncode
    return 1 if wrong or ran else 0


if __name__ == "__main__":
    sys.exit(main())
