#!/usr/bin/env python3
"""Measures how many lines of a log are followed in a second.

usage: measure/follow.py COMMAND.. [--runs N]

COMMAND is what follows a log: it is called as `COMMAND.. MODEL LOG`, as in `measure/follow.py crates/rc_main/out/rc_main
follow`. Five programs of examples/follow run once each on a real io_uring and leave a log of more than 200,000 lines,
which is followed N times (20). The slowest, the median and the fastest of these are printed, in lines a second of
wall-clock time. It needs a C compiler, liburing and a kernel with io_uring.
"""

import argparse
import os
import statistics
import subprocess
import tempfile
import time
from pathlib import Path

TOP = Path(__file__).resolve().parent.parent
EXAMPLES = TOP / "examples" / "follow"
# The programs, and how much each does.
PROGRAMS = {"wal": 11_000, "group_commit": 7_000, "page_writer": 9_000, "page_cache": 4_600, "event_loop": 18_000}


def logged(program, count, folder):
    """The log of a run of the program."""
    binary, data, log = folder / program, folder / "data", folder / f"{program}.log"
    data.write_bytes(bytes(20_000) if program == "page_cache" else b"")
    flags = ["-std=c11", "-O2", "-DRINGCHECK_LOG", f"-I{TOP / 'c'}", f"-fmacro-prefix-map={EXAMPLES}/="]
    subprocess.run(["cc", *flags, EXAMPLES / f"{program}.c", "-o", binary, "-luring", "-lpthread"], check=True)
    environment = dict(os.environ, RINGCHECK_LOG_FILE=str(log), RINGCHECK_LOG_SIZE="40000000")
    # A read at the end of the file is short, and counts as failed.
    subprocess.run([binary, data, str(count)], env=environment, stderr=subprocess.DEVNULL, check=False)
    return log


def rate(command, program, log, lines):
    begin = time.monotonic()
    said = subprocess.run([*command, EXAMPLES / f"{program}.rc", log], capture_output=True, text=True, check=False)
    took = time.monotonic() - begin
    if said.returncode:
        raise SystemExit(f"{program}: status {said.returncode}: {said.stdout}{said.stderr}")
    return lines / took


def main():
    words = argparse.ArgumentParser(usage=__doc__.split("usage: ")[1].splitlines()[0])
    words.add_argument("command", nargs="+", metavar="COMMAND")
    words.add_argument("--runs", type=int, default=20)
    said = words.parse_args()
    with tempfile.TemporaryDirectory() as name:
        for program, count in PROGRAMS.items():
            log = logged(program, count, Path(name))
            lines = log.read_bytes().split(b"\0", 1)[0].count(b"\n")
            rates = [rate(said.command, program, log, lines) for _ in range(said.runs)]
            print(f"{program:12} {lines} lines: slowest {min(rates):9,.0f}, median {statistics.median(rates):9,.0f}, "
                  f"fastest {max(rates):9,.0f} lines/s", flush=True)


if __name__ == "__main__":
    main()
