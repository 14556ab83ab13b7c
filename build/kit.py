"""The Rattle toolchain on the PATH, and what build/*.py have in common."""

import contextlib
import fcntl
import importlib.machinery
import importlib.util
import os
import shutil
import subprocess
import sys
from pathlib import Path

TOP = Path(__file__).resolve().parent.parent
# What is built here, and what was said while it was built. Git ignores it. No file of it ends .rt or .antt, as `rt ci`
# refuses those outside crates/.
KEPT = TOP / ".build"

# The processor minutes that `./ringcheck --prove` takes from nothing. README.md and CONTRIBUTING.md say them too.
PROCESSOR_MINUTES = "140"

# The exit status where nothing was built.
FAILED = 3


def say(text):
    print(f"ringcheck: {text}", file=sys.stderr, flush=True)


def stop(why):
    say(why)
    sys.exit(FAILED)


def answer(word):
    """What the command rt says to a word."""
    how = {"stdin": subprocess.DEVNULL, "stdout": subprocess.PIPE, "text": True, "check": False}
    return subprocess.run(["rt", word], **how).stdout.strip()


def find_kit():
    """The folder of the toolchain whose command rt is on the PATH."""
    if not shutil.which("rt"):
        stop("building needs the Rattle toolchain, whose command rt isn't on the PATH (README.md says which)")
    kit = Path(answer("doc")).parent
    if not (kit / "bin" / "rt").exists():
        stop("building needs to know where the toolchain is, and `rt doc` doesn't say")
    return kit


def version():
    """What the toolchain is called."""
    return answer("version") or "of no version"


def load(kit):
    """The module that is the command rt. It has the module rtlib, which knows how crates are built."""
    sys.dont_write_bytecode = True
    path = str(kit / "bin" / "rt")
    loader = importlib.machinery.SourceFileLoader("rt", path)
    rt = importlib.util.module_from_spec(importlib.util.spec_from_loader("rt", loader))
    sys.modules["rt"] = rt
    loader.exec_module(rt)
    return rt


def sources(function, folder):
    """What a function of build/sources.sh prints of a folder."""
    words = ["bash", "-c", f'source "$1" && {function} "$2"', "sources", str(TOP / "build" / "sources.sh"), str(folder)]
    done = subprocess.run(words, stdin=subprocess.DEVNULL, stdout=subprocess.PIPE, text=True, check=False)
    if done.returncode or not done.stdout:
        stop(f"the sources in {folder} can't be read")
    return done.stdout


def make_folder(path):
    """Makes a folder, or says that it can't be written."""
    try:
        path.mkdir(parents=True, exist_ok=True)
        if not os.access(path, os.W_OK):
            raise PermissionError(13, os.strerror(13))
    except OSError as error:
        stop(f"{path} can't be written ({error.strerror}): building needs a checkout that can be written")


@contextlib.contextmanager
def one_at_a_time(name, waits):
    """Waits until no other process holds the lock of this name, and says so if it has to."""
    with open(KEPT / f"{name}.lock", "w", encoding="utf-8") as lock:
        try:
            fcntl.flock(lock, fcntl.LOCK_EX | fcntl.LOCK_NB)
        except BlockingIOError:
            say(waits)
            fcntl.flock(lock, fcntl.LOCK_EX)
        except OSError:
            # Some file systems have no locks.
            pass
        yield
