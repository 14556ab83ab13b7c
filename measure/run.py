#!/usr/bin/env python3
"""Measures how many completions a second the threads of a run bring about.

usage: measure/run.py PROGRAM.. [--runs N] [--limit N]

Sixteen threads submit and reap for ever, each its own request: reads, writes, nops and fsyncs. Each PROGRAM runs them N
times, in turn with the others, and of each the best run is printed: completions and events a second of wall-clock time.
Events alone say little, since threads that poll make many of them.
"""

import argparse
import subprocess
import time

KINDS = (("read {0}", "prep_read 3 {0} 64 0"), ("write {0} 1", "prep_write 3 {0} 64 0 1"), ("nop", "prep_nop"), ("fsync", "prep_fsync 3 0"))

THREAD = """thread t{number} holds {buffer}:1 t:{number} c:1 {{
loop keeps {buffer}:1 t:{number} c:1 {{
fill {buffer} x
x = x + 1
lock {{
get_sqe
{prep}
set_data64 {number}
loop keeps{kept} q:64 {{
r = submit
if sq_ready == 0 {{
break
}}
}}
}}
loop keeps{kept} {{
lock {{
peek_cqe r {{
case {number} {{
cqe_seen
break
}}
other {{
}}
none {{
}}
}}
}}
}}
}}
}}
"""


def text():
    """The sixteen threads."""
    lines = ["ringcheck 1", "ring 64", "file 3 4096"]
    tokens, threads = [], []
    for number in range(16):
        buffer = f"b{number}"
        token, prep = (words.format(buffer) for words in KINDS[number % 4])
        lines.append(f"buffer {buffer} 64 1")
        tokens.append(f"token {number} {token}")
        kept = f" {buffer}:1" if number % 4 > 1 else ""
        threads.append(THREAD.format(number=number, buffer=buffer, prep=prep, kept=kept))
    return "\n".join(lines + tokens) + "\n" + "".join(threads)


def rates(program, seed, limit):
    """The completions and events a second of a run."""
    begin = time.monotonic()
    words = [program, "run", "--seed", str(seed), "--limit", str(limit)]
    ran = subprocess.run(words, input=text(), capture_output=True, text=True, check=False)
    took = time.monotonic() - begin
    events = ran.stdout.splitlines()[:-1]
    return sum(" kernel " in event for event in events) / took, len(events) / took


def main():
    words = argparse.ArgumentParser(usage=__doc__.split("usage: ")[1].splitlines()[0])
    words.add_argument("programs", nargs="+", metavar="PROGRAM")
    words.add_argument("--runs", type=int, default=6)
    words.add_argument("--limit", type=int, default=100000)
    said = words.parse_args()
    best = {program: (0.0, 0.0) for program in said.programs}
    for seed in range(1, said.runs + 1):
        for program in said.programs:
            best[program] = max(best[program], rates(program, seed, said.limit))
    for program, (completions, events) in best.items():
        print(f"{completions:9.0f} completions/s {events:9.0f} events/s {program}")


if __name__ == "__main__":
    main()
