#!/usr/bin/env python3
"""Proves and builds the program, from the lowest crate up: ./ringcheck --prove.

usage: build/prove.py

A library is proved as soon as those below it are there: as many at a time as processors and memory allow, first the one
above which most is still to be done. Then the program is proved, compiled and linked. What an earlier run kept is taken
where nothing has changed. A line says how far it is. .build/prove.log has the seconds of each crate, and
.build/prove/NAME.log what rt said of it.

It calls the functions by which `rt lib` and `rt run` build. The commands themselves would lock the crates below, so
that no two run side by side, and read the files of all crates again for each crate; and `rt all check` first goes over
the sources of all crates, three times.
"""

import os
import resource
import signal
import sys
import time
import traceback
from concurrent.futures import FIRST_COMPLETED, ThreadPoolExecutor, wait

import kit
from progress import Progress

LOG = kit.KEPT / "prove.log"
SAID = kit.KEPT / "prove"

# The memory for each crate that is proved beside others. Few take more.
BYTES = 3_000_000_000
# A crate that has nothing beside it is proved by several jobs.
MOST_JOBS = 4

# What is called of the modules rt and rtlib of the toolchain, and of a crate.
OF_RT = ("read_files", "processors", "free")
OF_RTLIB = ("Crate", "guarded", "lock", "root_above", "stop_on_links")
OF_CRATE = ("below", "build_rlib", "is_built", "makes_rlib", "run", "stamp")
BY_HAND = "these commands do the same, more slowly: cd crates/rc_main && rt all check && rt run -- --version"


def lacking(rt):
    """Of those names the ones that the toolchain doesn't have."""
    rtlib = getattr(rt, "rtlib", None)
    places = [(rt, OF_RT), (rtlib, OF_RTLIB), (getattr(rtlib, "Crate", None), OF_CRATE)]
    return [name for place, names in places for name in names if not hasattr(place, name)]


def load():
    """The module rt, made ready as the command rt makes it."""
    folder = kit.find_kit()
    try:
        rt = kit.load(folder)
    except Exception as error:
        kit.stop(f"the toolchain ({kit.version()}) can't be loaded: {error}; {BY_HAND}")
    if lacking(rt):
        kit.stop(f"the toolchain ({kit.version()}) has no {', '.join(lacking(rt))}; {BY_HAND}")
    # At Ctrl-C this process ends at once, and the toolchain's guard then ends all that it has started.
    signal.signal(signal.SIGINT, signal.SIG_DFL)
    rt.rtlib.guarded()
    # Kit 13f shares work between its processes where it is asked to; kit 13b has no such call.
    getattr(rt, "share_work", lambda _: None)(True)
    made = rt.rtlib.Crate.__init__

    def make(crate, *given, **named):
        made(crate, *given, **named)
        rt.read_files(crate)

    rt.rtlib.Crate.__init__ = make
    return rt


class Sums:
    """The sum of each crate's files and of all that it stands on, which is taken once."""

    def __init__(self, rtlib):
        self.made = made = rtlib.Crate.stamp
        self.taken = taken = {}

        def stamp(crate):
            if crate.folder not in taken:
                taken[crate.folder] = made(crate)
            return taken[crate.folder]

        rtlib.Crate.stamp = stamp

    def has_changed(self, crate):
        """Whether the crate's own files aren't those of which the sum was taken."""
        return self.made(crate) != self.taken[crate.folder]


class Proof:
    """The crates of one program, or of one library, and what is known of their proofs."""

    def __init__(self, rt, name, log):
        self.log = log
        self.sums = Sums(rt.rtlib)
        folder = str(kit.TOP / "crates" / name)
        self.top = rt.rtlib.Crate(folder, rt.rtlib.root_above(folder), {})
        self.crates = [*self.top.below(), self.top]
        for crate in self.crates:
            rt.rtlib.stop_on_links(crate.folder)
        # No other rt works on these crates meanwhile. To run a program, rt gives the locks up.
        self.top.held = rt.rtlib.lock(self.crates)
        for crate in self.crates:
            crate.stamp()
        self.lanes = max(1, min(rt.processors(), rt.free() // BYTES))
        self.progress = Progress(self.crates, self.lanes)
        self.killed = set()

    def is_kept(self, crate):
        """Whether an earlier run has proved this library. The program is looked at anyway, in no time."""
        return crate is not self.top and crate.is_built()

    def note(self, line):
        print(line, file=self.log, flush=True)

    def prove(self, crate, jobs):
        """Proves a crate, as one of several threads, and returns rt's status."""
        flags = ["--jobs", str(jobs)]
        os.makedirs(f"{crate.folder}/out", exist_ok=True)
        with open(SAID / f"{crate.name}.log", "w", encoding="utf-8") as crate.out:
            try:
                if crate.makes_rlib():
                    return crate.build_rlib(flags, anew=False)
                return crate.run(flags, ["--version"])
            except SystemExit as end:
                return end.code or 1
            except Exception:
                traceback.print_exc(file=crate.out)
                return 2

    def next_crates(self, left, running):
        """The crates that can begin now, each with its jobs."""
        # What was killed is tried again with nothing beside it.
        lanes = 1 if self.killed - self.progress.done else self.lanes
        ready = [it for it in left if self.progress.done.issuperset(it.below())]
        ready = ready[: max(lanes - len(running), 0)]
        share = lanes // max(len(ready) + len(running), 1)
        return [(it, max(1, min(MOST_JOBS, share))) for it in ready]

    def all(self):
        """Proves all crates, and returns the one that failed, if one did."""
        chains = self.progress.chains(self.progress.about)
        left = sorted((it for it in self.crates if not self.is_kept(it)), key=lambda it: -chains[it])
        for crate in self.crates:
            if crate not in left:
                self.progress.skip(crate)
        running, failed = {}, None
        with ThreadPoolExecutor(self.lanes) as pool:
            while running or (left and not failed):
                for crate, jobs in [] if failed else self.next_crates(left, running):
                    left.remove(crate)
                    self.progress.begin(crate)
                    running[pool.submit(self.prove, crate, jobs)] = crate, jobs
                self.progress.show()
                for end in wait(running, timeout=1, return_when=FIRST_COMPLETED).done:
                    crate, jobs = running.pop(end)
                    if self.is_out_of_memory(crate, end.result()):
                        left.insert(0, crate)
                    elif not self.has_ended_well(crate, jobs, end.result()):
                        failed = failed or crate
        self.progress.clear()
        return failed

    def is_out_of_memory(self, crate, status):
        """Whether a crate was killed that can be tried again. From then on there is one lane less."""
        if status != -signal.SIGKILL or crate in self.killed:
            return False
        self.killed.add(crate)
        self.lanes = self.progress.lanes = max(self.lanes - 1, 1)
        self.progress.end(crate, False)
        self.tell(f"the proof of {crate.name} was killed, most likely for want of memory: once more, by itself")
        return True

    def has_ended_well(self, crate, jobs, status):
        """Takes the end of a crate's proof, and says where it failed."""
        took = self.progress.end(crate, not status)
        if not status and self.sums.has_changed(crate):
            for kept in ("rlib/stamp", f"{crate.name}.stamp"):
                (kit.Path(crate.folder) / "out" / kept).unlink(missing_ok=True)
            self.tell(f"files of {crate.name} changed while it was proved: run ./ringcheck --prove again")
            return False
        self.note(f"{crate.name} {took:.0f} s, {jobs} jobs, " + (f"failed ({status})" if status else "proved"))
        if status:
            self.tell(f"{crate.name} isn't proved. rt said:")
            sys.stderr.write((SAID / f"{crate.name}.log").read_text(encoding="utf-8", errors="replace"))
            return False
        self.progress.show(crate)
        return True

    def tell(self, line):
        self.progress.clear()
        self.note(line)
        kit.say(line)


def processor_minutes():
    """What this process and those that it started have used."""
    used = [resource.getrusage(it) for it in (resource.RUSAGE_SELF, resource.RUSAGE_CHILDREN)]
    return sum(it.ru_utime + it.ru_stime for it in used) / 60


def main(name="rc_main"):
    kit.make_folder(SAID)
    started = time.time()
    rt = load()
    with open(LOG, "w", encoding="utf-8") as log:
        # What rt and the program write on standard output goes there too.
        os.dup2(log.fileno(), sys.stdout.fileno())
        proof = Proof(rt, name, log)
        proof.note(f"{time.ctime(started)}, {kit.version()}, {proof.lanes} crates at a time")
        failed = proof.all()
        # What changed after the beginning is newer than the program.
        program = kit.TOP / "crates" / name / "out" / name
        if program.exists() and (not failed or program.stat().st_mtime > started):
            os.utime(program, (started, started))
        used = f"{processor_minutes():.0f} processor minutes"
        proof.note(used)
        if failed:
            kit.stop(f"{failed.name} failed, after {used}; {LOG} has the seconds of each crate")
    kit.say(f"{used} used")
    kit.say("proved; ./ringcheck runs it")
    return 0


if __name__ == "__main__":
    try:
        sys.exit(main())
    except OSError as error:
        kit.stop(f"proving the program failed: {error}")
