#!/usr/bin/env python3
"""Runs a built program on real files, pipes and processes, and holds what it does against what it should do.

usage: ci/program.py PROGRAM

Of each command it sees each exit status that the command has, 0 to 3, with what is on standard output and what is on
standard error, apart. It names several files, one that isn't there, a folder, one that may not be read, and standard
input; it closes the standard streams, and gives a full device, a pipe that nobody reads and an input without an end; it
gives models with carriage returns, in pieces, and a model at the limits of the notation; reads fail after the model, and
writes after some bytes. A run makes the choices of its seed, is made again by the schedule of its events, and has each
of them in its summary; its threads take turns; one whose threads can't be made is out of memory. What a file may be and
how many processes there may be is no obstacle for root: for that the program is run as a user that has nothing.

A line is printed for each answer that isn't as it should be, and for each part that was left out; then how many there
were. The status is 1 where an answer is wrong.
"""

import os
import re
import resource
import shutil
import socket
import subprocess
import sys
import tempfile
import tty
from pathlib import Path

TOP = Path(__file__).resolve().parent.parent
SECONDS = 60

# A user without files and processes.
NOBODY = 54321

HEAD = b"ringcheck 1\nring 1\nthread t0 holds {\n"
GOOD = HEAD + b"x = 1\n}\n"
REFUSED = HEAD + b"r = submit\n}\n"
UNREADABLE = HEAD + b"x = y z\n}\n"
KEEPING = b"ringcheck 1\nring 1\nthread t0 holds c:2 {\n\tloop  keeps {  # all of it\n}\n}"
ENDLESS = HEAD + b"loop keeps {\nx = 1\n}\n}\n"
FOREVER = b"ringcheck 1\nring 1\n" + b"".join(b"thread t%d holds {\nloop keeps {\nx = 1\n}\n}\n" % n for n in range(2))
KEEPS = (TOP / "examples/keeps.rc").read_bytes()
SENDING = (TOP / "examples/handoff.rc").read_bytes()
SENDING_IN_C = (TOP / "examples/c/handoff.c").read_text()
SHUT_DOWN = b"".join(
    b"Content-Length: %d\r\n\r\n" % len(body) + body
    for body in (
        b'{"jsonrpc":"2.0","id":1,"method":"initialize","params":{"capabilities":{}}}',
        b'{"jsonrpc":"2.0","id":2,"method":"shutdown"}',
        b'{"jsonrpc":"2.0","method":"exit"}',
    )
)
# Two threads pass a token to each other by two pools, outside any lock. Nothing is ever pending.
PASSING = b"""ringcheck 4
ring 1
pool there
pool back
token 1 nop
thread t0 holds t:1 {
loop keeps t:1 {
put there t:1
loop keeps {
if take back t:1 {
break
}
}
}
}
thread t1 holds {
loop keeps {
if take there t:1 {
put back t:1
}
}
}
"""

# A thread that submits a nop again and again and waits for it: it finds another's completion at the front for as long as
# that one doesn't move.
POLLER = b"""thread t%d holds t:%d c:1 {
loop keeps t:%d c:1 {
lock {
get_sqe
prep_nop
set_data64 %d
loop keeps q:2 {
r = submit
if sq_ready == 0 {
break
}
}
}
loop keeps {
lock {
peek_cqe r {
case %d {
cqe_seen
break
}
other {
}
none {
}
}
}
}
}
}
"""
POLLING = b"ringcheck 1\nring 2\ntoken 1 nop\ntoken 2 nop\n" + b"".join(POLLER % ((n,) * 5) for n in (1, 2))
FILES = {
    "good.rc": GOOD,
    "refused.rc": REFUSED,
    "unreadable.rc": UNREADABLE,
    "empty.rc": b"",
    "-": GOOD,
    "moves": b"t0 # its one step\n",
    "a b\n.rc": GOOD,
}

# What is reported of a file, after its name, of a stream, and of wrong words.
MISSING = "No such file or directory"
FOLDER = "Is a directory"
NO_FOLDER = "Not a directory"
FORBIDDEN = "Permission denied"
BROKEN = "Input/output error"
NO_END = "the input has no end"
MEMORY = "out of memory (20)"
BESIDE = "'-' stands beside other files (see 'ringcheck --help')"
NO_EXPLAIN = "the following required arguments were not provided: --explain (see 'ringcheck --help')"
ONE_FILE = "unexpected argument 'good.rc' found (see 'ringcheck --help')"
UNKNOWN = "unexpected argument '--no' found (see 'ringcheck --help')"
NO_LIMIT = "the following required arguments were not provided: --limit <N> (see 'ringcheck --help')"
ENDED = "item 2, t0, isn't enabled: t0 has ended"
NO_WALKS = "invalid value '0' for '--walks <N>': 0 is not in 1..=1000000 (see 'ringcheck --help')"
NO_COMMAND = "unrecognized subcommand 'verify' (see 'ringcheck --help')"
NO_OUTPUT = "the output can't be written..."
NO_INPUT = "the input can't be read..."

ACCEPTED = "accepted\n"
INDENTED = GOOD.decode().replace("x = 1", "    x = 1")
FILLED = KEEPING.decode().replace("keeps {", "keeps c:2 {")
ONE_EVENT = "1 t0 4 set 1\nended after 1 events\n"
FIVE_EVENTS = "1 t0 4 loop\n2 t0 5 set 1\n3 t0 4 loop\n4 t0 5 set 1\n5 t0 4 loop\nlimit after 5 events\n"
NONE_IDLE = "lines that never ran: none\n"
ONE_COUNTED = f"thread t0: 1 events\nlongest stretch: 1 events of t0\n{NONE_IDLE}ended after 1 events\n"
FIVE_COUNTED = f"thread t0: 5 events\nlongest stretch: 5 events of t0\n{NONE_IDLE}limit after 5 events\nstuck there:\n  t0 goes round at line 4\n"
REFUSAL = "refused line 4 V1 Unlocked\n"
FAULT = "unreadable line 4 P3 BadLine\n"
FOUND = "found by walk 1, before the first step\n"
NO_LOCK = "fault F9 NoLock t0 line 4\n"
FOUND_JSON = '{"cause":"Unlocked","code":1,"line":4,"moves":"","trace":"fault F9 NoLock t0 line 4\\n","verdict":"refused","walk":1}\n'
KEPT = "refused line 5 V13 LoopEntry\n"
NOT_FOUND = KEPT + "no fault in 7 walks: the model may lack detail, or try more `--walks`\n"
NOT_FOUND_JSON = '{"cause":"LoopEntry","code":13,"line":5,"moves":null,"trace":null,"verdict":"refused","walk":null}\n'
RUN = ("run", "--seed", "1", "--limit", "5")

# Words, the model on standard input, and what follows: the exit status, standard output, and standard error.
# Of what ends with an ellipsis the beginning is held.
ROWS = [
    (("check",), GOOD, 0, ACCEPTED, ""),
    (("check",), REFUSED, 1, REFUSAL, ""),
    (("check",), UNREADABLE, 2, FAULT, ""),
    (("check", "--no"), GOOD, 3, "", UNKNOWN),
    (("check",), b"", 2, "unreadable line 1 P2 BadHead\n", ""),
    (("check", "--json"), GOOD, 0, '{"verdict":"accepted"}\n', ""),
    (("check", "--json"), REFUSED, 1, '{"cause":"Unlocked","code":1,"line":4,"verdict":"refused"}\n', ""),
    (("check", "--json"), UNREADABLE, 2, '{"cause":"BadLine","code":3,"line":4,"verdict":"unreadable"}\n', ""),
    (("check", "--explain"), GOOD, 0, ACCEPTED, ""),
    (("check", "--explain"), REFUSED, 1, REFUSAL + "...", ""),
    (("check", "--explain"), UNREADABLE, 2, FAULT + "...", ""),
    (("check", "--explain", "--listing"), GOOD, 0, "accepted\nthread t0\n  line 4, x = 1: ...", ""),
    (("check", "--explain", "--listing"), REFUSED, 1, REFUSAL + "...", ""),
    (("check", "--explain", "--listing"), UNREADABLE, 2, FAULT + "...", ""),
    (("check", "--listing"), GOOD, 3, "", NO_EXPLAIN),
    (("check", "--explain", "--json"), GOOD, 0, "{...", ""),
    (("check", "--explain", "--json"), REFUSED, 1, "{...", ""),
    (("check", "--explain", "--json"), UNREADABLE, 2, "{...", ""),
    (("keeps",), KEEPING, 0, FILLED, ""),
    (("keeps",), REFUSED, 0, REFUSED.decode(), ""),
    (("keeps",), UNREADABLE, 2, FAULT, ""),
    (("keeps",), b"", 2, "unreadable line 1 P2 BadHead\n", ""),
    (("keeps", "--no"), GOOD, 3, "", UNKNOWN),
    (("fmt",), GOOD, 0, INDENTED, ""),
    (("fmt",), UNREADABLE, 0, INDENTED.replace("x = 1", "x = y z"), ""),
    (("fmt", "--no"), GOOD, 3, "", UNKNOWN),
    (("lsp",), b"", 1, "", ""),
    (("lsp",), SHUT_DOWN, 0, "Content-Length: ...", ""),
    (("lsp",), GOOD, 1, "", "the input ends within a message"),
    (("lsp", "--no"), GOOD, 3, "", UNKNOWN),
    (("step", "--schedule", "t0"), GOOD, 0, ONE_EVENT, ""),
    (("step",), GOOD, 0, "stopped after 0 events\n", ""),
    (("step",), REFUSED, 1, "fault F9 NoLock t0 line 4\n", ""),
    (("step", "--schedule", "t0"), UNREADABLE, 2, FAULT, ""),
    (("step", "--schedule", "t0,t0"), GOOD, 3, "1 t0 4 set 1\nitem 2 not enabled\n", ENDED),
    (("step", "--schedule", "t0,u"), GOOD, 3, "schedule item 2 unreadable\n", ""),
    (("step", "--schedule", "t0*2"), GOOD, 3, "schedule item 1 unreadable\n", "item 1, t0*2, is a move: it needs '--moves' in place of '--schedule'"),
    (("step", "--state", "--schedule", "t0"), GOOD, 0, "1 t0 4 set 1\nended after 1 events\nthread t0: ...", ""),
    (("step", "--state"), REFUSED, 1, "fault F9 NoLock t0 line 4\n...", ""),
    (("step", "--state"), UNREADABLE, 2, FAULT, ""),
    (("step", "--state", "--schedule", "t0,t0"), GOOD, 3, "1 t0 4 set 1\nitem 2 not enabled\n...", ENDED),
    (("step", "--moves", "t0*1"), GOOD, 0, ONE_EVENT, ""),
    (("step", "--moves", "t0@4 # none\nt0"), GOOD, 0, ONE_EVENT, ""),
    (("step", "--state", "--moves", "t0"), GOOD, 0, "1 t0 4 set 1\nended after 1 events\nthread t0: ...", ""),
    (("step", "--moves", "t0"), UNREADABLE, 2, FAULT, ""),
    (("step", "--moves", "t0*2"), GOOD, 3, "1 t0 4 set 1\nitem 2 not enabled\n", "move 1, t0*2, isn't enabled: t0 has ended"),
    (("step", "--moves", "t0,u*2"), GOOD, 3, "schedule item 2 unreadable\n", "move 2 can't be read: `u*2`"),
    (("step", "--moves", ","), REFUSED, 1, NO_LOCK, ""),
    (("step", "--moves", "@moves"), GOOD, 0, ONE_EVENT, ""),
    (("step", "--moves", "@missing.rc"), GOOD, 3, "", f"missing.rc: {MISSING}"),
    (("find",), GOOD, 0, ACCEPTED, ""),
    (("find",), REFUSED, 1, REFUSAL + FOUND + NO_LOCK, ""),
    (("find", "--seed", "9", "--walks", "1"), REFUSED, 1, REFUSAL + FOUND + NO_LOCK, ""),
    (("find", "--walks", "7"), KEEPS, 1, NOT_FOUND, ""),
    (("find",), UNREADABLE, 2, FAULT, ""),
    (("find", "--json"), GOOD, 0, '{"moves":null,"trace":null,"verdict":"accepted","walk":null}\n', ""),
    (("find", "--json"), REFUSED, 1, FOUND_JSON, ""),
    (("find", "--json", "--walks", "7"), KEEPS, 1, NOT_FOUND_JSON, ""),
    (("find", "--json"), UNREADABLE, 2, '{"cause":"BadLine","code":3,"line":4,"moves":null,"trace":null,"verdict":"unreadable","walk":null}\n', ""),
    (("find", "--walks", "0"), GOOD, 3, "", NO_WALKS),
    (RUN, GOOD, 0, ONE_EVENT, ""),
    (RUN, REFUSED, 1, REFUSAL, ""),
    (RUN, UNREADABLE, 2, FAULT, ""),
    (RUN, ENDLESS, 3, FIVE_EVENTS, ""),
    (("run", "--seed", "1"), GOOD, 3, "", NO_LIMIT),
    ((*RUN, "--summary"), GOOD, 0, ONE_COUNTED, ""),
    ((*RUN, "--summary"), ENDLESS, 3, FIVE_COUNTED, ""),
    (("c",), SENDING, 0, SENDING_IN_C, ""),
    (("c",), REFUSED, 1, REFUSAL, ""),
    (("c",), UNREADABLE, 2, FAULT, ""),
    (("c", "--no"), GOOD, 3, "", UNKNOWN),
    (("verify",), GOOD, 3, "", NO_COMMAND),
    (("check", b"\xff"), GOOD, 3, "", "..."),
    (("--version",), b"", 0, "ringcheck 0.1.0\n", ""),
    (("--help",), b"", 0, "Checks threaded programs ...", ""),
    (("check", "--help"), b"", 0, "Check models, ...", ""),
    # Files, with a model on standard input that is none of theirs.
    (("check", "good.rc"), UNREADABLE, 0, "good.rc: accepted\n", ""),
    (("check", "refused.rc"), GOOD, 1, "refused.rc:4: refused V1 Unlocked\n", ""),
    (("check", "unreadable.rc"), GOOD, 2, "unreadable.rc:4: unreadable P3 BadLine\n", ""),
    (("check", "empty.rc"), GOOD, 2, "empty.rc:1: unreadable P2 BadHead\n", ""),
    (("check", "/dev/null"), GOOD, 2, "/dev/null:1: unreadable P2 BadHead\n", ""),
    (("check", "missing.rc"), GOOD, 3, "", f"missing.rc: {MISSING}"),
    (("check", "good.rc/x"), GOOD, 3, "", f"good.rc/x: {NO_FOLDER}"),
    (("check", "folder"), GOOD, 3, "", f"folder: {FOLDER}"),
    (("check", "/proc/self/mem"), GOOD, 3, "", f"/proc/self/mem: {BROKEN}"),
    (("check", "/dev/zero"), GOOD, 3, "", f"/dev/zero: {NO_END}"),
    (("check", "a b\n.rc"), b"", 0, "a b\\u000a.rc: accepted\n", ""),
    (("check", "refused.rc", "good.rc"), b"", 1, "refused.rc:4: refused V1 Unlocked\ngood.rc: accepted\n", ""),
    (("check", "--json", "good.rc"), b"", 0, '{"file":"good.rc","verdict":"accepted"}\n', ""),
    (("check", "--json", "folder"), b"", 3, "", f"folder: {FOLDER}"),
    (("check", "--explain", "refused.rc"), GOOD, 1, "refused.rc:4: refused V1 Unlocked\n...", ""),
    (("check", "--explain", "missing.rc"), GOOD, 3, "", f"missing.rc: {MISSING}"),
    (("check", "--explain", "good.rc", "a b\n.rc"), b"", 0, "good.rc: accepted\na b\\u000a.rc: accepted\n", ""),
    (("check", "--explain", "good.rc", "missing.rc"), b"", 3, "good.rc: accepted\n", f"missing.rc: {MISSING}"),
    (("check", "--explain", "--json", "good.rc"), b"", 0, '{"file":"good.rc","notes":[],...', ""),
    (("check", "--explain", "--json", "refused.rc", "good.rc"), b"", 1, '{"asks":"asks for the lock; it isn\'t held","cause":"Unlocked",...', ""),
    (("fmt", "good.rc"), UNREADABLE, 0, INDENTED, ""),
    (("fmt", "missing.rc"), GOOD, 3, "", f"missing.rc: {MISSING}"),
    (("keeps", "good.rc"), UNREADABLE, 0, GOOD.decode(), ""),
    (("keeps", "missing.rc"), GOOD, 3, "", f"missing.rc: {MISSING}"),
    (("keeps", "good.rc", "good.rc"), b"", 3, "", ONE_FILE),
    (("step", "--schedule", "t0", "good.rc"), b"", 0, ONE_EVENT, ""),
    (("step", "refused.rc"), b"", 1, "fault F9 NoLock t0 line 4\n", ""),
    (("step", "missing.rc"), GOOD, 3, "", f"missing.rc: {MISSING}"),
    (("step", "--state", "folder"), GOOD, 3, "", f"folder: {FOLDER}"),
    ((*RUN, "good.rc"), b"", 0, ONE_EVENT, ""),
    ((*RUN, "missing.rc"), GOOD, 3, "", f"missing.rc: {MISSING}"),
    ((*RUN, "folder"), GOOD, 3, "", f"folder: {FOLDER}"),
    (("c", "refused.rc"), GOOD, 1, "refused.rc:4: refused V1 Unlocked\n", ""),
    (("c", "missing.rc"), GOOD, 3, "", f"missing.rc: {MISSING}"),
    # `-` alone is standard input; a file of that name is named otherwise.
    (("check", "-"), REFUSED, 1, REFUSAL, ""),
    (("keeps", "-"), GOOD, 0, GOOD.decode(), ""),
    (("step", "-"), REFUSED, 1, "fault F9 NoLock t0 line 4\n", ""),
    ((*RUN, "-"), GOOD, 0, ONE_EVENT, ""),
    (("c", "-"), SENDING, 0, SENDING_IN_C, ""),
    (("check", "./-"), REFUSED, 0, "./-: accepted\n", ""),
    (("check", "-", "good.rc"), GOOD, 3, "", BESIDE),
    (("check", "good.rc", "-"), GOOD, 3, "", BESIDE),
    # Lines that end with a carriage return and a line feed.
    (("check",), GOOD.replace(b"\n", b"\r\n"), 0, ACCEPTED, ""),
    (("check",), REFUSED.replace(b"\n", b"\r\n"), 1, REFUSAL, ""),
    (("keeps",), KEEPING.replace(b"\n", b"\r\n"), 0, FILLED.replace("\n", "\r\n"), ""),
    (("step", "--schedule", "t0"), GOOD.replace(b"\n", b"\r\n"), 0, ONE_EVENT, ""),
]

# Several files, of which some can't be read: what is reported of them, and the status is the greatest.
MIXED = ("check", "missing.rc", "refused.rc", "folder", "unreadable.rc", "good.rc")
MIXED_OUTPUT = "refused.rc:4: refused V1 Unlocked\nunreadable.rc:4: unreadable P3 BadLine\ngood.rc: accepted\n"
MIXED_TOLD = f"ringcheck: missing.rc: {MISSING}\nringcheck: folder: {FOLDER}\n"

# What a shell does before the program, words, a model, the status and what is reported; nothing is written. Memory is
# bounded, and the input may have no end: `fmt` prints all of it, so it alone keeps it.
STREAMS = [
    ("exec >&-", ("check",), GOOD, 3, NO_OUTPUT),
    ("exec >/dev/full", ("check",), GOOD, 3, NO_OUTPUT),
    ("exec >/dev/full", ("check", "good.rc", "refused.rc"), b"", 3, NO_OUTPUT),
    ("exec >/dev/full", ("check", "--explain"), REFUSED, 3, NO_OUTPUT),
    ("exec >/dev/full", ("keeps",), GOOD, 3, NO_OUTPUT),
    ("exec >/dev/full", ("step",), REFUSED, 3, NO_OUTPUT),
    ("exec >/dev/full", RUN, GOOD, 3, NO_OUTPUT),
    ("exec >/dev/full", ("c",), SENDING, 3, NO_OUTPUT),
    ("exec >/dev/full", ("--version",), b"", 3, NO_OUTPUT),
    ("exec <&-", ("check",), b"", 3, NO_INPUT),
    ("exec <folder", ("check",), b"", 3, NO_INPUT),
    ("exec 2>&-", ("check", "missing.rc"), b"", 3, ""),
    ("exec 2>/dev/full", ("check", "missing.rc"), b"", 3, ""),
    ("ulimit -v 100000; exec </dev/zero", ("check",), b"", 3, NO_END),
    ("ulimit -v 100000; exec </dev/zero", RUN, b"", 3, NO_END),
    ("ulimit -v 100000; exec </dev/zero", ("fmt",), b"", 3, MEMORY),
    ("ulimit -v 100000", ("check", "/dev/zero"), b"", 3, f"/dev/zero: {NO_END}"),
    ("ulimit -v 100000", ("follow", "/dev/zero", "log"), b"", 3, f"/dev/zero: {NO_END}"),
]

HANDED = "t0,t0,t0,t0,t0,t0,t0,t0,t0,k:7=16:65,t1,t1,t1,t1,t1,t1,t1"

# Words whose answer is the same each time, and a text. Their input may fail after it, and their output within the answer.
STEADY = [
    (("check",), SENDING),
    (("check", "--json"), REFUSED),
    (("check", "--explain"), REFUSED),
    (("keeps",), KEEPING),
    (("fmt",), GOOD),
    (("step", "--schedule", HANDED), SENDING),
    (("step", "--state"), REFUSED),
    (("find",), REFUSED),
    (RUN, ENDLESS),
    (RUN, REFUSED),
    ((*RUN, "--summary"), ENDLESS),
    (("c",), REFUSED),
]

# After how many lengths about an output fails.
CUTS = 16

# How many bytes the program is given at a read.
PIECES = (1, 7, 320, 4096)

# The last line of a large model, its exit status and the verdict.
LARGE = [
    (b"x = 1", 0, ACCEPTED),
    (b"r = submit", 1, "refused line 4095 V1 Unlocked\n"),
    (b"x = y z", 2, "unreadable line 4095 P3 BadLine\n"),
]

# How the choices of a seed are made: the constants of PCG, and of the words that make a state of a seed.
MULTIPLIER = 6364136223846793005
SEEDING = 11634580027462260723
WORKERS = 2

# How many seeds a model is run with, so that each choice comes: that of a short read comes with one in eight.
SEEDS = 100


def fits(text, wanted):
    """Whether a text is the wanted one, or begins with it where that ends with an ellipsis."""
    return text.startswith(wanted[:-3]) if wanted.endswith("...") else text == wanted


def fits_message(text, message):
    """Whether standard error has this message on one line, and nothing where there is none."""
    if not message:
        return text == ""
    return text.count("\n") == 1 and text.endswith("\n") and fits(text[:-1], f"ringcheck: {message}")


class Bench:
    """Runs the program in a folder, and notes what is wrong about its answers."""

    def __init__(self, program, folder):
        self.program = program
        self.folder = folder
        self.answers = self.wrong = 0

    def ran(self, words, text=b"", shell="", **how):
        """The exit status, standard output and standard error; before the program a shell does this."""
        given = [self.program, *words]
        if shell:
            given = ["sh", "-c", f'{shell}; exec "$0" "$@"', *given]
        if "stdin" not in how:
            how["input"] = text
        how = {"stdout": subprocess.PIPE, "stderr": subprocess.PIPE, **how}
        try:
            done = subprocess.run(given, cwd=self.folder, timeout=SECONDS, check=False, **how)
        except subprocess.TimeoutExpired:
            return "hung", "", ""
        return done.returncode, (done.stdout or b"").decode(), done.stderr.decode()

    def hold(self, name, *pairs):
        """Notes what isn't as it should be: of each pair what it is, and whether that is right."""
        self.answers += 1
        wrong = [is_so for is_so, right in pairs if not right]
        self.wrong += bool(wrong)
        for is_so in wrong:
            print(f"{name}: {is_so}", flush=True)

    def row(self, words, text, status, output, message, note="", **how):
        """Runs the program, and holds its answer."""
        got, written, told = self.ran(words, text, **how)
        self.hold(
            " ".join(map(str, words)) + note,
            (f"the status is {got}, and not {status}", got == status),
            (f"standard output is {written[:200]!r}, and not {output[:200]!r}", fits(written, output)),
            (f"standard error is {told[:200]!r}, and not {message!r}", fits_message(told, message)),
        )


def hold_rows(bench):
    """The commands, their statuses, and files."""
    for row in ROWS:
        bench.row(*row)
    status, output, told = bench.ran(MIXED)
    right = (status, output, told) == (3, MIXED_OUTPUT, MIXED_TOLD)
    bench.hold("several files", (f"{status}, {output!r} and {told!r}", right))


def hold_forbidden(bench, how):
    """A file that may not be read."""
    path = bench.folder / "forbidden.rc"
    path.write_bytes(GOOD)
    path.chmod(0)
    bench.row(("check", path.name), GOOD, 3, "", f"{path.name}: {FORBIDDEN}", **how)
    bench.row(("check", path.name, "good.rc"), GOOD, 3, "good.rc: accepted\n", f"{path.name}: {FORBIDDEN}", **how)
    bench.row((*RUN, path.name), GOOD, 3, "", f"{path.name}: {FORBIDDEN}", **how)


def hold_streams(bench):
    """Streams that fail."""
    for shell, words, text, status, message in STREAMS:
        bench.row(words, text, status, "", message, note=f" after {shell}", shell=shell)
    reader, writer = os.pipe()
    os.close(reader)
    status, _, told = bench.ran(("check",), GOOD, stdout=writer)
    os.close(writer)
    ends = (f"the status is {status}", status in (3, -13))
    bench.hold("check to a closed pipe", ends, (f"{told!r} is told", told == ""))


def hold_pieces(bench):
    """A model that comes in pieces, each of which a read gives alone."""
    words = ("step", "--schedule", HANDED)
    whole = bench.ran(words, SENDING)
    for size in PIECES:
        ours, theirs = socket.socketpair(socket.AF_UNIX, socket.SOCK_SEQPACKET)
        how = {"stdin": theirs, "stdout": subprocess.PIPE, "stderr": subprocess.PIPE}
        with subprocess.Popen([bench.program, *words], cwd=bench.folder, **how) as running:
            theirs.close()
            with ours:
                for place in range(0, len(SENDING), size):
                    ours.send(SENDING[place : place + size])
            output, told = running.communicate(timeout=SECONDS)
        right = (running.returncode, output.decode(), told.decode()) == whole and whole[0] == 0
        bench.hold(f"a text in pieces of {size}", (f"{running.returncode}, {output[-200:]!r} and {told!r}", right))


def hold_failing_inputs(bench):
    """Inputs that fail after their model, as a terminal does that is hung up."""
    for words, text in STEADY:
        ours, theirs = os.openpty()
        tty.setraw(theirs)
        os.write(theirs, text)
        os.close(theirs)
        bench.row(words, None, 3, "", NO_INPUT, " of an input that fails", stdin=ours)
        os.close(ours)


def hold_failing_outputs(bench):
    """Outputs that fail after some bytes: files that may not be as long. A beginning of the answer is there."""
    path = bench.folder / "output"
    for words, text in STEADY:
        whole = bench.ran(words, text)[1]
        for most in range(0, len(whole), max(1, len(whole) // CUTS)):

            def bounded():
                resource.setrlimit(resource.RLIMIT_FSIZE, (most, most))

            with path.open("wb") as output:
                how = {"stdout": output, "preexec_fn": bounded, "restore_signals": False}
                status, _, told = bench.ran(words, text, **how)
            written = path.read_bytes().decode()
            right = (status, written) == (3, whole[:most]) and fits_message(told, NO_OUTPUT)
            bench.hold(f"{' '.join(words)} with {most} bytes of output", (f"{status}, {written!r} and {told!r}", right))


def large(last):
    """A model of 4,096 lines of 256 bytes, whose thread ends with this line."""
    lines = [*HEAD.split(b"\n")[:-1], *[b"x = 1"] * (4096 - 5), last, b"}"]
    return b"".join((line + b" #").ljust(256, b"x") + b"\n" for line in lines)


def hold_large(bench):
    """Models of a megabyte, at the limits of the notation, in a file and on standard input."""
    note = " of a megabyte"
    for last, status, verdict in LARGE:
        text = large(last)
        (bench.folder / "large.rc").write_bytes(text)
        bench.row(("check",), text, status, verdict, "", note)
        for given in ("large.rc", "-"):
            told = verdict if given == "-" else re.sub(r"^(\w+) line (\d+) ", rf"{given}:\2: \1 ", verdict)
            run = told if status else "1 t0 4 set 1\n..."
            step = told if status == 2 else "stopped after 0 events\n"
            bench.row(("step", given), text, status & 2, step, "", note)
            bench.row(("run", "--seed", "1", "--limit", "9000", given), text, status, run, "", note)
        bench.row(("check", "--explain"), text, status, verdict + "...", "", note)
        bench.row(("check", "--explain", "--listing"), text, status, verdict + "...", "", note)
        bench.row(("c",), text, status, verdict if status else "...", "", note)
    text = large(b"x = 1") + b"#"
    bench.row(("check",), text, 2, "unreadable line 4097 P8 TooLarge\n", "", " of 4,097 lines")


def words_of(seed):
    """The words of a generator with this seed: those of rand_pcg's Lcg64Xsh32::seed_from_u64."""

    def turned(state):
        word = ((state >> 18) ^ state) >> 27 & 0xFFFFFFFF
        return (word >> (state >> 59) | word << (-(state >> 59) & 31)) & 0xFFFFFFFF

    state, seeds = seed, []
    for _ in range(4):
        state = (state * MULTIPLIER + SEEDING) % 2**64
        seeds.append(turned(state))
    step = seeds[2] | seeds[3] << 32 | 1
    state = (((seeds[0] | seeds[1] << 32) + step) * MULTIPLIER + step) % 2**64
    while True:
        yield turned(state)
        state = (state * MULTIPLIER + step) % 2**64


def are_choices(answers, seed):
    """Whether a thread draws these answers at its turns. Each of the two workers may draw a word between them."""
    words = words_of(seed)
    drawn = [[0, -11][next(words) % 2] for _ in range(len(answers) + WORKERS)]
    skipped = {0}
    for place, answer in enumerate(answers):
        later = {more for less in skipped for more in range(less, WORKERS + 1)}
        skipped = {count for count in later if answer in (None, drawn[place + count])}
    return bool(skipped)


def hold_seeds(bench):
    """Submits of nothing, of which each answers 0 or -11 as the seed says, and no request that a worker serves."""
    count = 60
    text = HEAD + b"lock {\n" + b"r = submit\n" * count + b"}\n}\n"
    for seed in (0, 1, 2, 4294967295):
        status, output, _ = bench.ran(("run", "--seed", str(seed), "--limit", "1000"), text)
        # The turn that takes the lock draws too.
        answers = [None, *map(int, re.findall(r"submit (\S+)$", output, re.MULTILINE))]
        right = status == 0 and len(answers) == count + 1 and are_choices(answers, seed)
        bench.hold(f"run --seed {seed}", (f"these aren't the choices of the seed: {answers[1:]}", right))


def item_of(event, choices):
    """The item of a schedule that makes the event of a trace's line again, where reads bring zeros. At lines with these
    numbers an if is a free choice."""
    words = event.split(" ")[1:]
    if words[0] == "kernel":
        return f"k:{words[1]}={words[2]}"
    if words[1] in choices and words[2:] == ["if", "no"]:
        return f"{words[0]}=0"
    return f"{words[0]}={words[3]}" if words[2] == "submit" else words[0]


def hold_run(bench, name, seed):
    """A run to its end, which counts its events, and whose events are stepped again."""
    text = (TOP / "examples" / name).read_bytes()
    status, trace, told = bench.ran(("run", "--seed", str(seed), "--limit", "1000000"), text)
    *events, end = trace.splitlines() or [""]
    right = (status, end, told) == (0, f"ended after {len(events)} events", "")
    bench.hold(f"run of {name}, seed {seed}", (f"it ends with {status}, {end!r} and {told!r}", right))
    choices = {str(number) for number, line in enumerate(text.splitlines(), 1) if line.split()[:2] == [b"if", b"any"]}
    words = ("step", "--schedule", ",".join(item_of(event, choices) for event in events))
    status, again, told = bench.ran(words, text)
    right = (status, again, told) == (0, trace, "")
    bench.hold(f"run of {name}, seed {seed}, again", (f"{status}, {again[-200:]!r} and {told!r}", right))
    if name == "handoff.rc":
        count = sum(event.endswith(" print 0") for event in events)
        bench.hold(f"run of {name}, seed {seed}, what it prints", (f"it prints 0 {count} times", count == 1))


def hold_runs(bench):
    """Runs of models, whatever the order in which their threads run."""
    for seed in range(1, 6):
        for name in ("handoff.rc", "share.rc", "gather.rc", "hand_back.rc", "pool.rc", "gallery/server/server.rc"):
            hold_run(bench, name, seed)
    text = (TOP / "examples/pump.rc").read_bytes()
    status, trace, told = bench.ran(("run", "--seed", "1", "--limit", "50"), text)
    found = re.search(r"^limit after (\d+) events\n\Z", trace, re.MULTILINE)
    right = (status, told) == (3, "") and found and int(found[1]) >= 50
    bench.hold("run of pump.rc to its limit", (f"{status}, {trace[-200:]!r} and {told!r}", right))


def hold_first_submits(bench):
    """The first submit of a run, of one entry, which fails, takes nothing or takes it: each of that comes with some seed,
    and so does a read that fails, one that is short and one that brings all."""
    seen, results = set(), set()
    for seed in range(SEEDS):
        status, trace, told = bench.ran(("run", "--seed", str(seed), "--limit", "1000000"), SENDING)
        found = re.search(r" submit (\S+)$", trace, re.MULTILINE)
        seen.add(found[1] if found else "none")
        results.update(int(result) for result in re.findall(r" kernel 7 (\S+)$", trace, re.MULTILINE))
        bench.hold(f"run of handoff.rc, seed {seed}", (f"{status} and {told!r}", (status, told) == (0, "")))
    bench.hold("first submits of handoff.rc", (f"they answer {sorted(seen)}", seen == {"-11", "0", "1"}))
    right = {-5, 16} < results and results <= {-5, *range(17)}
    bench.hold("reads of handoff.rc", (f"their results are {sorted(results)}", right))


def hold_turns(bench):
    """Runs of threads that poll, which let each other and the kernel move; with bounds that a slow machine meets too.

    Of 2,000 events some 300 are puts: where a thread that asks in vain goes on to the end of its slice, it is a tenth of
    it. Of 20,000 some 600 are completions, and each thread makes about the half of the others.
    """
    _, trace, _ = bench.ran(("run", "--seed", "1", "--limit", "2000"), PASSING)
    puts = sum(line.endswith(" put") for line in trace.splitlines())
    bench.hold("a run of threads that ask pools", (f"it has {puts} puts", puts > 100))
    _, summary, _ = bench.ran(("run", "--seed", "1", "--limit", "20000", "--summary"), POLLING)
    completions = sum(map(int, re.findall(r"^request .*?: (\d+)", summary, re.MULTILINE)))
    turns = [int(count) for count in re.findall(r"^thread \w+: (\d+)", summary, re.MULTILINE)]
    right = completions > 40 and len(turns) == 2 and min(turns) > 1000
    bench.hold("a run of threads that poll", (f"it has {completions} completions, and turns {turns}", right))


def hold_summaries(bench):
    """Summaries, which count each event for its thread or for its token, whatever the order in which threads run."""
    for name in ("handoff.rc", "share.rc"):
        text = (TOP / "examples" / name).read_bytes()
        status, summary, told = bench.ran(("run", "--seed", "1", "--limit", "1000000", "--summary"), text)
        counts = re.findall(r"^(?:thread|request) .*?: (\d+)", summary, re.MULTILINE)
        end = re.search(r"^ended after (\d+) events\n\Z", summary, re.MULTILINE)
        right = end and int(end[1]) == sum(map(int, counts)) > 0
        bench.hold(f"summary of {name}", (f"{status} and {told!r}", (status, told) == (0, "")), (summary, right))
        if name == "handoff.rc":
            # A request that is reaped once has its result and its arm counted once.
            right = "request 7 (read): 1 completions, 1 with result " in summary
            right = right and "line 22, peek_cqe r: case 7: 1, other 0, none " in summary
            bench.hold(f"summary of {name}, its result and its arm", (summary, right))


def hold_threads(bench, how):
    """Runs whose threads can't all be made. There are four: for two threads of the model, and two workers."""
    for most in range(1, 5 if how else 2):

        def bounded():
            resource.setrlimit(resource.RLIMIT_NPROC, (most, most))

        words = ("run", "--seed", "1", "--limit", "500000")
        status, output, told = bench.ran(words, FOREVER, preexec_fn=bounded, **how)
        *events, end = output.splitlines() or [""]
        bench.hold(
            f"a run with {most} processes",
            (f"the status is {status}", status == 3),
            (f"it ends with {end!r} after {len(events)} events", end == f"out of memory after {len(events)} events"),
            (f"{told!r} is told", told == ""),
        )


def left_out():
    """Commands and statuses without a row. `keeps` and `fmt` never answer 1; `fmt` and `lsp` never answer 2."""
    names = ("check", "keeps", "step", "find", "run", "c", "fmt", "lsp")
    wanted = {(name, status) for name in names for status in range(4)} - {("keeps", 1), ("fmt", 1), ("fmt", 2), ("lsp", 2)}
    return wanted - {(words[0], status) for words, _, status, *_ in ROWS}


def made(folder, program):
    """A bench in a folder that everybody may look into, with a program that everybody may run."""
    folder.chmod(0o755)
    copy = folder / "program"
    shutil.copy(program, copy)
    copy.chmod(0o755)
    (folder / "folder").mkdir()
    for name, text in FILES.items():
        (folder / name).write_bytes(text)
    return Bench(copy, folder)


def other_user(bench):
    """How a program is run as a user that has nothing; none where it can't be."""
    how = {"user": NOBODY, "group": NOBODY, "extra_groups": []}
    try:
        return how if bench.ran(("--version",), **how)[0] == 0 else None
    except (OSError, subprocess.SubprocessError):
        return None


def main():
    if len(sys.argv) != 2:
        sys.exit(__doc__)
    if left_out():
        sys.exit(f"there is no row of {left_out()}")
    with tempfile.TemporaryDirectory() as folder:
        bench = made(Path(folder), sys.argv[1])
        hold_rows(bench)
        hold_streams(bench)
        hold_pieces(bench)
        hold_failing_inputs(bench)
        hold_failing_outputs(bench)
        hold_large(bench)
        hold_seeds(bench)
        hold_first_submits(bench)
        hold_runs(bench)
        hold_turns(bench)
        hold_summaries(bench)
        how = other_user(bench) if os.geteuid() == 0 else {}
        if how is None:
            print("left out, since root can't run the program as another user: files that may not be read, and threads")
        else:
            hold_forbidden(bench, how)
            hold_threads(bench, how)
    print(f"{bench.answers} answers of the program, {bench.wrong} wrong")
    return 1 if bench.wrong else 0


if __name__ == "__main__":
    sys.exit(main())
