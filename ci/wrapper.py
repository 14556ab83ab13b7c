#!/usr/bin/env python3
"""Holds the script ./ringcheck to what it should do, in a small repository with a toolchain that only looks like one.

usage: ci/wrapper.py

Nothing is proved or compiled: in place of the commands of the toolchain there are those of ci/wrapper/, whose program
prints its words and its input. It sees which program runs and when one is built, what is reported, that words, streams and
statuses are those of the program, that two builds at a time are one, what an interrupted one leaves, and what is reported
where something is missing.

A line is printed for each thing that isn't as it should be, and then how many there were. The status is 1 if there were
any.
"""

import os
import re
import shutil
import signal
import subprocess
import sys
import tempfile
import time
from pathlib import Path

TOP = Path(__file__).resolve().parent.parent
SECONDS = 60
# So much is printed of what is wrong.
MOST = 500

# What the script needs besides the toolchain.
TOOLS = "awk bash cat chmod cp cut dirname env find git head mkdir python3 readlink rm sha256sum sh sleep sort stat true xargs".split()

BUILDS = r"ringcheck: unproved build of (\S+); \./ringcheck --prove proves it here \(some \S+ processor minutes\)\n"
WORDS = ("say", "a b", "", "*")
TEXT = b"text\n\xff"
OUTPUT = b"say\na b\n\n*\n" + TEXT
STATUS = 7
MANIFEST = "# Crates.\nlow: std\nother: low\nrc_main: low # the program\n"
FILES = ["low/src/lib.rt", "low/specs/Lib.antt", "low/proofs/Lib.antt", "other/src/lib.rt", "rc_main/src/main.rt"]


class Bench:
    """A small repository with a toolchain, in a folder, and what was wrong there."""

    def __init__(self, room):
        self.room = room
        self.top = room / "top"
        self.kit = room / "kit"
        self.bin = room / "bin"
        self.temporary = room / "tmp"
        self.seen = self.wrong = 0

    def make(self):
        for folder in (self.top / "crates", self.bin, self.temporary):
            folder.mkdir(parents=True)
        shutil.copy(TOP / "ringcheck", self.top)
        shutil.copy(TOP / ".gitignore", self.top)
        shutil.copytree(TOP / "build", self.top / "build", ignore=shutil.ignore_patterns("__pycache__"))
        (self.top / "crates.txt").write_text(MANIFEST)
        for name in FILES:
            (self.top / "crates" / name).parent.mkdir(parents=True)
            self.write(name, name)
        shutil.copytree(TOP / "ci" / "wrapper", self.kit)
        for tool in TOOLS:
            path = shutil.which(tool)
            if path:
                (self.bin / tool).symlink_to(os.path.realpath(path))
        (self.bin / "rt").symlink_to(self.kit / "bin" / "rt")
        author = ["-c", "user.name=a", "-c", "user.email=a@b"]
        for words in (["init", "-q"], ["add", "."], [*author, "commit", "-q", "-m", "Begin"]):
            subprocess.run(["git", *words], cwd=self.top, check=True)

    def write(self, name, text):
        """Writes a file of a crate."""
        (self.top / "crates" / name).write_text(text)

    def given(self, **changes):
        return {"PATH": str(self.bin), "TMPDIR": str(self.temporary), "HOME": str(self.room), **changes}

    def start(self, *words, changes=None, **how):
        pipe = subprocess.PIPE
        how = {"cwd": self.room, "env": self.given(**(changes or {})), "stdin": pipe, "stdout": pipe, "stderr": pipe, **how}
        return subprocess.Popen([self.top / "ringcheck", *words], **how)

    def ran(self, *words, **how):
        """The exit status, standard output and standard error."""
        with self.start(*words, **how) as process:
            output, told = process.communicate(TEXT, timeout=SECONDS)
        return process.returncode, output, told.decode()

    def calls(self):
        """How often the toolchain's compiler was called, by the words that it was called with."""
        path = self.kit / "calls"
        return path.read_text().splitlines() if path.exists() else []

    def hold(self, name, right, got):
        self.seen += 1
        if not right:
            self.wrong += 1
            print(f"{name}: {str(got)[:MOST]}", flush=True)

    def hold_run(self, name, got, told=""):
        """Holds a call that runs the program: its status and output, and what is reported."""
        right = got[:2] == (STATUS, OUTPUT) and re.fullmatch(told, got[2])
        self.hold(name, right, got)

    def hold_failure(self, name, got, told):
        """Holds a call that fails before the program could run."""
        self.hold(name, got[:2] == (3, b"") and re.search(told, got[2]), got)


def hold_builds(bench):
    """A program is built once for the sources that it is made from."""
    first = bench.ran(*WORDS)
    bench.hold_run("the first call", first, BUILDS)
    calls = bench.calls()
    bench.hold("the compiler's words", len(calls) == 2 and all("-O1" in it and "sanitize" not in it for it in calls), calls)
    bench.hold_run("the second call", bench.ran(*WORDS))
    revision = subprocess.run(["git", "rev-parse", "--short", "HEAD"], cwd=bench.top, capture_output=True, text=True, check=True).stdout.strip()
    bench.hold("the revision", f" of {revision};" in first[2], first)
    version = (0, f"ringcheck 0.1.0 (unproved build of {revision})\n".encode(), "")
    bench.hold("--version", bench.ran("--version") == version, bench.ran("--version"))
    with open("/dev/full", "wb") as full:
        got = bench.ran("--version", stdout=full)
    bench.hold("--version to a full device", got == (3, None, "ringcheck: the output can't be written\n"), got)
    bench.write("low/proofs/Lib.antt", "another proof")
    bench.write("low/specs/Lib.antt", "another definition")
    bench.write("other/src/lib.rt", "another test")
    bench.hold_run("a change that the program isn't made from", bench.ran(*WORDS))
    bench.write("low/src/lib.rt", "another source")
    changed = bench.ran(*WORDS)
    bench.hold_run("a change of a source", changed, BUILDS)
    bench.hold("the revision of changed sources", f" of {revision}+;" in changed[2], changed)
    bench.write("low/src/lib.rt", "low/src/lib.rt")
    bench.hold_run("the sources as they were", bench.ran(*WORDS))
    link = bench.room / "link"
    link.symlink_to(bench.top / "ringcheck")
    done = subprocess.run([link, *WORDS], env=bench.given(), input=TEXT, capture_output=True, check=False)
    bench.hold("a link to the script", (done.returncode, done.stdout, done.stderr) == (STATUS, OUTPUT, b""), done)


def hold_two(bench):
    """Two calls at a time build once."""
    bench.write("low/src/lib.rt", "two at a time")
    before = len(bench.calls())
    processes = [bench.start(*WORDS) for _ in range(2)]
    for process in processes:
        process.stdin.write(TEXT)
        process.stdin.close()
    told = ""
    for process in processes:
        with process:
            output, error = process.stdout.read(), process.stderr.read().decode()
        bench.hold("one of two calls at a time", (process.wait(), output) == (STATUS, OUTPUT), (process.returncode, output, error))
        told += error
    bench.hold("what two calls tell", len(re.findall(BUILDS, told)) == 1, told)
    bench.hold("builds of two calls", len(bench.calls()) == before + 2, bench.calls()[before:])


def hold_interrupted(bench, number):
    """A build that is interrupted leaves nothing, and the next one begins anew."""
    bench.write("low/src/lib.rt", f"slow {number}")
    process = bench.start(*WORDS, start_new_session=True)
    until = time.monotonic() + SECONDS
    while time.monotonic() < until and process.poll() is None and not (bench.kit / "slow").exists():
        time.sleep(0.02)
    os.killpg(process.pid, number)
    with process:
        output, _ = process.communicate(timeout=SECONDS)
    (bench.kit / "slow").unlink(missing_ok=True)
    bench.hold("the status of an interrupted build", process.returncode in (-number, 128 + number) and not output, process.returncode)
    bench.hold("what an interrupted build leaves", not list(bench.temporary.iterdir()), list(bench.temporary.iterdir()))
    bench.write("low/src/lib.rt", f"not slow {number}")
    bench.hold_run("the call after an interrupted build", bench.ran(*WORDS), BUILDS)


def hold_lacking(bench):
    """What is reported where something is missing, and nothing that runs is built."""
    for name in ("rt", "python3"):
        hidden = bench.bin / f"hidden-{name}"
        (bench.bin / name).rename(hidden)
        bench.hold_run(f"no {name}, where a program is built", bench.ran(*WORDS))
        bench.write("low/src/lib.rt", f"without {name}")
        bench.hold_failure(f"no {name}", bench.ran(*WORDS), rf"{name}\b.* isn't on the PATH")
        bench.hold_failure(f"no {name} to prove", bench.ran("--prove"), rf"{name}\b.* isn't on the PATH")
        hidden.rename(bench.bin / name)
        bench.hold_run(f"{name} again", bench.ran(*WORDS), BUILDS)
    bench.write("low/src/lib.rt", "without clang")
    clang = bench.kit / "toolchain" / "bin" / "clang"
    clang.rename(bench.kit / "clang")
    bench.hold_failure("no clang", bench.ran(*WORDS), "kit-of-a-test.* no clang")
    (bench.kit / "clang").rename(clang)
    bench.write("low/src/lib.rt", "refused")
    bench.hold_failure("sources that are refused", bench.ran(*WORDS), r"error\[x\](.|\n)* refuses the sources")
    bench.hold_failure("words after --prove", bench.ran("--prove", "x"), "--prove takes no further words")


def hold_not_taken(bench):
    """Where the toolchain doesn't build so, this call is run by `rt try`, with the files that it names."""
    bench.write("low/src/lib.rt", "not taken")
    file = bench.room / "a.rc"
    file.write_text("a")
    wanted = f"try --data a.rc={bench.room}/a.rc -- check a.rc\n".encode()
    got = bench.ran("check", "a.rc")
    right = got[:2] == (5, wanted) and re.search(f"{BUILDS}.* doesn't build (.|\n)* rt try", got[2])
    bench.hold("a toolchain that doesn't take it", right, got)


def hold_unwritable(bench):
    """A folder .build that can't be made. (Root may write anywhere, so a file is in its place.)"""
    bench.write("low/src/lib.rt", "not to be written")
    kept = bench.top / ".build"
    shutil.rmtree(kept)
    kept.write_text("")
    for words in (WORDS, ("--prove",)):
        bench.hold_failure("a checkout that can't be written", bench.ran(*words), r"/\.build\b.* can't be written")
    kept.unlink()


def hold_proofs(bench):
    """What --prove proves, and from when on that program runs."""
    bench.write("low/src/lib.rt", "unproved")
    bench.hold_failure("a proof that fails", bench.ran("--prove"), r"low isn't proved(.|\n)*not proved: low(.|\n)*low failed, after 0 processor minutes")
    bench.hold("no proved program", not (bench.top / "crates/rc_main/out/rc_main").exists(), None)
    bench.write("low/src/lib.rt", "proved")
    status, output, told = bench.ran("--prove")
    ends = told.endswith("ringcheck: 0 processor minutes used\nringcheck: proved; ./ringcheck runs it\n")
    bench.hold("a proof", (status, output) == (0, b"") and ends, (status, output, told))
    proved = [re.match(r"(\w+) \d+ s, ", it)[1] for it in (bench.top / ".build/prove.log").read_text().splitlines() if it.endswith("proved")]
    bench.hold("what is proved", proved == ["low", "rc_main"], proved)
    bench.hold_run("the call after a proof", bench.ran(*WORDS))
    bench.hold("--version of a proved program", bench.ran("--version") == (0, b"ringcheck 0.1.0\n", ""), bench.ran("--version"))
    bench.write("other/src/lib.rt", "later")
    bench.hold_run("a later change of a crate that isn't below", bench.ran(*WORDS))
    bench.write("low/proofs/Lib.antt", "later")
    bench.hold_run("a later change of a proof", bench.ran(*WORDS), BUILDS)
    for what in ("that change", "a touch"):
        status, _, told = bench.ran("--prove")
        bench.hold(f"a proof after {what}", status == 0, told)
        bench.hold(f"--version after {what}", bench.ran("--version") == (0, b"ringcheck 0.1.0\n", ""), bench.ran("--version"))
        (bench.top / "crates/low/src/lib.rt").touch()


def main():
    if len(sys.argv) > 1:
        sys.exit(__doc__.split("\n\n")[1])
    with tempfile.TemporaryDirectory() as room:
        bench = Bench(Path(room))
        bench.make()
        hold_builds(bench)
        hold_two(bench)
        for number in (signal.SIGINT, signal.SIGTERM):
            hold_interrupted(bench, number)
        hold_lacking(bench)
        hold_not_taken(bench)
        hold_unwritable(bench)
        hold_proofs(bench)
    print(f"{bench.seen} things seen, {bench.wrong} wrong")
    return int(bench.wrong > 0)


if __name__ == "__main__":
    sys.exit(main())
