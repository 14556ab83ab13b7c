"""Checks a copy of a crate in which edits are made, and reads what the prover says of each function."""

import contextlib
import functools
import os
import re
import shutil
import signal
import subprocess
import tempfile
from dataclasses import dataclass
from pathlib import Path

from edit_files import CRATES, TOP

PARTS = ("src", "specs", "proofs")
VERDICT = re.compile(r"^fn (\S+): (.+)$", re.MULTILINE)
# What the last line of a check begins with that has come to its end.
ENDS = re.compile(r"(logic=(not-)?proved|only=\d+ proved=\d+)\b")
# An error at a place of a file, and what it is said of.
ERROR = re.compile(r"^(?:\./)?(\S+?):\d+:\d+: error: (?:(`[^`]*`): )?(.*)$", re.MULTILINE)
# What antt says of a text that it can't read, where it says of which declaration.
UNREAD = re.compile(r"is not in scope|has no field|is no name|operand is missing|expected the end|cannot continue")
# The same of a proof that names what an edit took away, or that rests on one that isn't there.
RESTS = re.compile(r"is not in scope|has no field|has no `|was not admitted")
PROVED = re.compile(r"proved(?: where its callers give what it asks)?(?:, may \w+)*$")
# The parts of the reason why there is no proof.
OPEN = re.compile(r"`search` did not prove `")
CALLS = re.compile(r"it calls (.+), which (?:is|are) not proved$")
FILES = re.compile(r"expected answers in \S+$")


class Failed(Exception):
    """A check that says nothing of the edits."""


@dataclass
class Verdict:
    """What is said of a function: that it is proved, or that it fails by itself, and which functions it waits for."""

    is_proved: bool
    fails: bool
    waits: set


def verdict_of(name, words, errors):
    """What the words say of a function, with the errors in the files of its own proof: without one, a proof that is
    refused only rests on something else that is."""
    if PROVED.match(words):
        return Verdict(True, False, set())
    first, *rest = words.removeprefix("no proof: ").split("; ")
    found = Verdict(False, first == "not proved" and bool(errors), set())
    for part in rest if first == "not proved" else [first, *rest]:
        calls = CALLS.match(part)
        if calls:
            found.waits.update(re.findall(r"`([^`]+)`", calls[1]))
        elif OPEN.match(part):
            found.fails = True
        elif not FILES.match(part):
            raise Failed(f"what is said of {name} has a part that isn't known: {words[:200]}")
    return found


@dataclass
class Said:
    """What a check came to: its status, what it wrote, and the processor seconds that it took."""

    status: int
    text: str
    seconds: float

    @property
    def is_whole(self):
        """Whether it came to a verdict on the functions."""
        last = self.text.rstrip("\n").rpartition("\n")[2]
        return self.status in (0, 1) and bool(ENDS.match(last))

    @functools.cached_property
    def functions(self):
        lines = {*VERDICT.findall(self.text)}
        found = {name: verdict_of(name, words, self.own_errors(name)) for name, words in lines}
        if len(found) != len(lines):
            raise Failed("two verdicts on one function")
        return found

    def unread(self, files):
        """What it couldn't read or compile of the code, or of these files: None where it could."""
        compiles = re.search(r"^.*\berror\[[\w-]+\].*$", self.text, re.MULTILINE)
        if self.status == 1 and compiles:
            return compiles[0]
        for it in ERROR.finditer(self.text):
            is_code = it[1] in files or it[1].startswith(("src/", "specs/"))
            if is_code and (not it[2] or UNREAD.search(re.sub(r"`[^`]*`", "", it[3]))):
                return it[0]
        return None

    def own_errors(self, name):
        """The errors in the files of a function's proof, without those that only say that something else isn't there."""
        folder = "proofs/" + "/".join(name.split("::")[1:])
        cycle = re.sub(r"/(\w+)$", r"/+\1", folder)
        found = [it for it in ERROR.finditer(self.text) if it[1].startswith((f"{folder}/", f"{cycle}/"))]
        return [it[0] for it in found if not RESTS.search(re.sub(r"`[^`]*`", "", it[3]))]


@functools.lru_cache(maxsize=None)
def kit():
    return Path(subprocess.run(["rt", "doc"], stdout=subprocess.PIPE, text=True, check=True).stdout.strip()).parent


@functools.lru_cache(maxsize=None)
def libraries():
    """What each crate uses, by crates.txt."""
    lines = [it.partition("#")[0].partition(":") for it in (TOP / "crates.txt").read_text().splitlines()]
    return {name.split()[0]: used.split() for name, _, used in lines if name.strip()}


def below(crate):
    """The repository's crates below a crate, each after those that it uses."""
    found = []
    for it in libraries()[crate]:
        if it in libraries():
            found += [name for name in [*below(it), it] if name not in found]
    return found


def library(crate):
    return CRATES / crate / "out" / "rlib" / f"{crate}.rlib"


def build_below(crates, after_ci):
    """Builds the libraries below these crates, lowest first. What rt ci built has no stamp, and rt would build it anew."""
    names = list(dict.fromkeys(name for crate in crates for name in below(crate)))
    stamped = [name for name in names if (library(name).parent / "stamp").exists()]
    if after_ci and not stamped and all(library(name).is_dir() for name in names):
        return
    for name in names:
        run = subprocess.run(["rt", "lib", "--jobs", "1"], cwd=CRATES / name, capture_output=True, text=True)
        if run.returncode:
            raise Failed(f"the library {name} isn't proved:\n{(run.stdout + run.stderr)[-4000:]}")


def words_of(crate):
    """The command that checks a crate in the folder in which it is run, over the libraries below it."""
    is_program = (CRATES / crate / "src" / "main.rt").exists()
    words = [kit() / "bin" / "rattle", "check", "--crate-name", crate, "src/main.rt" if is_program else "src/lib.rt"]
    for name in ["std", *libraries()[crate]]:
        built = library(name) if name in libraries() else kit() / "rlibs" / f"{name}.rlib"
        words += ["--extern", f"{name}={built}"]
    for folder in [kit() / "rlibs", *[library(name).parent for name in below(crate)]]:
        words += ["-L", f"dependency={folder}"]
    words += ["--antt-project", kit() / "rattle" / "logic" / "antt-project.json", "--logic-built", kit() / "logic_built"]
    return [*map(str, words), "--links", f"{crate}=", "--jobs", "1"]


def link_proved(one, other):
    """A check replaces the files of what it proved and changes none, so a link is as good as a copy."""
    try:
        return os.link(one, other) if str(one).endswith(".oantt") else shutil.copy2(one, other)
    except OSError:
        return shutil.copy2(one, other)


def copy_crate(crate, texts, room):
    """Copies a crate with these texts in place of its own."""
    for part in PARTS:
        if (CRATES / crate / part).is_dir():
            shutil.copytree(CRATES / crate / part, room / part)
    for path, text in texts.items():
        (room / path).write_text(text)


@contextlib.contextmanager
def kept_work(crate):
    """A folder in which the checks of a crate keep what they prove, so that a further one proves only what is new to it. It
    begins with what `rt check` kept, where there is some."""
    with tempfile.TemporaryDirectory(prefix="ringcheck-edits-") as folder:
        kept, own = Path(folder) / "kept", CRATES / crate / "out" / "incremental"
        try:
            if own.is_dir():
                shutil.copytree(own, kept, symlinks=True, copy_function=link_proved)
        except (OSError, shutil.Error):
            # (another command may write what this one copies)
            shutil.rmtree(kept, ignore_errors=True)
        kept.mkdir(exist_ok=True)
        yield kept


def run_check(crate, texts, only, kept):
    """One check of a crate with these texts, of these functions and what they call; of all where none is named."""
    with tempfile.TemporaryDirectory(prefix="ringcheck-edits-") as folder:
        room = Path(folder)
        copy_crate(crate, texts, room)
        words = [*words_of(crate), "--incremental", str(kept), *(word for it in only for word in ("--only", it))]
        with open(room / "said", "w+", errors="replace") as said:
            run = subprocess.Popen(words, cwd=room, stdin=subprocess.DEVNULL, stdout=said, stderr=subprocess.STDOUT)
            _, status, used = os.wait4(run.pid, 0)
            run.returncode = os.waitstatus_to_exitcode(status)
            said.seek(0)
            return Said(run.returncode, said.read(), used.ru_utime + used.ru_stime)


def check(crate, texts, only, kept):
    """As `run_check`, once more where it was killed, as for memory, or came to no verdict."""
    said = run_check(crate, texts, only, kept)
    if said.status == -signal.SIGINT:
        raise KeyboardInterrupt
    if said.is_whole or said.unread(texts):
        return said
    again = run_check(crate, texts, only, kept)
    again.seconds += said.seconds
    if again.is_whole or again.unread(texts):
        return again
    how = "was killed, maybe for memory" if again.status == -signal.SIGKILL else f"ended with status {again.status}"
    raise Failed(f"its check {how}, twice, and says nothing:\n{again.text[-2000:]}")
