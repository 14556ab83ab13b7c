"""How far a proof of many crates is, and about how long it still takes."""

import os
import re
import shutil
import sys
import time

# What a crate's proof takes in seconds, about: something at all, and for each function and each line of proof.
FIXED, PER_FUNCTION, PER_LINE = 10, 1.5, 0.045
# After so many seconds of that the pace of this machine is known.
ENOUGH = 60


def seconds(folder):
    """About how long the proof of the crate in this folder takes."""
    functions = lines = 0
    for part in ("src", "proofs"):
        for below, _, names in os.walk(f"{folder}/{part}"):
            for name in names:
                with open(f"{below}/{name}", encoding="utf-8", errors="replace") as file:
                    text = file.read()
                if part == "src":
                    functions += len(re.findall(r"\bfn \w", text))
                else:
                    lines += text.count("\n")
    return FIXED + PER_FUNCTION * functions + PER_LINE * lines


class Progress:
    """Which crates are proved, and which are being proved since when."""

    def __init__(self, crates, lanes):
        # Those above a crate come before it.
        self.crates = sorted(crates, key=lambda it: -len(it.below()))
        self.lanes = lanes
        self.about = {it: seconds(it.folder) for it in crates}
        self.above = {it: [other for other in crates if it in other.below()] for it in crates}
        self.started = time.monotonic()
        self.since = {}
        self.done = set()
        # The seconds that what was proved took, and those that it was thought to take.
        self.took = self.thought = 0
        self.is_terminal = sys.stderr.isatty()

    def chains(self, own):
        """Of each crate how long it and what stands on it take one after another, where each takes its own seconds."""
        found = {}
        for crate in self.crates:
            found[crate] = own[crate] + max((found[it] for it in self.above[crate]), default=0)
        return found

    def skip(self, crate):
        """Takes a crate that an earlier run proved."""
        self.done.add(crate)

    def begin(self, crate):
        self.since[crate] = time.monotonic()

    def end(self, crate, is_proved):
        """Takes the end of a crate's proof, and returns how many seconds it took."""
        took = time.monotonic() - self.since.pop(crate)
        if is_proved:
            self.took += took
            self.thought += self.about[crate]
            self.done.add(crate)
        return took

    def minutes_left(self):
        """At least what the longest chain takes, and what all takes that is left, shared by the lanes."""
        pace = self.took / self.thought if self.thought > ENOUGH else 1
        now = time.monotonic()
        left = {}
        for crate in self.crates:
            spent = now - self.since.get(crate, now)
            left[crate] = 0 if crate in self.done else max(self.about[crate] * pace - spent, 0)
        return max(*self.chains(left).values(), sum(left.values()) / self.lanes) / 60

    def show(self, ended=None):
        """On a terminal rewrites one line; elsewhere writes a line for a crate that has ended."""
        minutes = (time.monotonic() - self.started) / 60
        line = f"ringcheck: {len(self.done)} of {len(self.crates)} crates proved"
        line = f"{line}, {minutes:.0f} min so far, about {self.minutes_left():.0f} min left"
        if self.is_terminal:
            line = f"{line} ({', '.join(it.name for it in self.since)})"
            width = shutil.get_terminal_size().columns
            print(f"\r{line[: width - 1]}\033[K", end="", file=sys.stderr, flush=True)
        elif ended:
            print(f"{line} ({ended.name})", file=sys.stderr, flush=True)

    def clear(self):
        """Removes the line from a terminal, before another is written."""
        if self.is_terminal:
            print("\r\033[K", end="", file=sys.stderr, flush=True)
