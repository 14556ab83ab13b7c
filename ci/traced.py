#!/usr/bin/env python3
"""Turns runs of a model into logs, as a C program with this control flow would have written them.

usage: ci/traced.py PROGRAM MODEL.. --to FOLDER [--runs N] [--limit N]

Each accepted MODEL is run N times (3) by `PROGRAM run`, up to so many events (160). FOLDER gets NAME.1.log, NAME.2.log and
so on. Places in a log are lines of the model. Puts and takes of the pool without a name are marked as those of a pool `all`.
"""

import argparse
import subprocess
import sys
from pathlib import Path


# What the pool without a name is called in marks.
UNNAMED = "all"


def words_of(line):
    """The words of a line of a model, without its brace and what is behind a #."""
    return line.split("#")[0].replace("{", " ").replace("}", " ").split()


def head(model, name):
    """The first lines of a log of the model, with the threads' names and what its buffers, tokens and files are."""
    entries, things, threads = None, [], []
    for number, line in enumerate(model, 1):
        match words_of(line):
            case ["ring", entry, *rest]:
                entries = entry, rest[rest.index("cq") + 1] if "cq" in rest else str(2 * int(entry))
            case ["buffer", buffer, size, *_]:
                things.append(f"{name}:{number} buffer {buffer} {size}")
            case ["token", token, *_]:
                things.append(f"{name}:{number} token {token}")
            case ["file", file, *_]:
                things.append(f"{name}:{number} file {file}")
            case ["thread", thread, *_]:
                threads.append(thread)
    return ["ringcheck log 1", f"ring {' '.join(entries)}", *(f"{threads[0]} {thing}" for thing in things)]


def blocks_of(model):
    """The words of the lines that open the blocks around each line, the outermost first."""
    around, blocks = [], []
    for line in model:
        line = line.split("#")[0]
        if line.strip().startswith("}"):
            blocks = blocks[:-1]
        around.append(blocks)
        if line.rstrip().endswith("{"):
            blocks = [*blocks, words_of(line)]
    return around


def left(blocks):
    """The unlocks of a break in these blocks, which leaves the locks in its loop."""
    for block in reversed(blocks):
        if block[0] == "loop":
            return
        if block[0] == "lock":
            yield " ".join(["unlock", *block[1:]])


def marks(word, items):
    """The marks of a put or a take of these items: one for each buffer, or one alone."""
    pool = UNNAMED if items and ":" in items[0] else items.pop(0)
    buffers = [item.split(":")[0] for item in items if not item.startswith(("t:", "c:"))]
    return [f"{word} {pool} {buffer}" for buffer in buffers] or [f"{word} {pool}"]


def said(line, event):
    """What a log has for an event, its words, at a line of the model."""
    words = words_of(line)
    match event:
        case ["lock" | "peek_cqe" | "set_data64" | "cqe_seen", *_]:
            return [" ".join(event)]
        case ["release", *side]:
            return [" ".join(["unlock", *side])]
        case ["get_sqe"]:
            return ["get_sqe 1"]
        case ["prep_read" | "prep_write" as call]:
            return [" ".join([call, *words[1:5]])]
        case ["prep_fsync"]:
            return [" ".join(words[:3] if len(words) > 2 else [*words, "0"])]
        case ["prep_nop"]:
            return ["prep_nop"]
        case ["prep_other"]:
            return ["prep_other 6"]
        case ["submit", answer]:
            wanted = words[words.index("submit_and_wait") + 1 :] if "submit_and_wait" in words else []
            return [f"submit_and_wait {wanted[0]} {answer}" if wanted else f"submit {answer}"]
        case ["fill" | "store", *_]:
            return [f"writes {words[1]}"]
        case ["load", *_]:
            return [f"reads {words[words.index('load') + 1]}"]
        case ["put"]:
            return marks("put", words[1:])
        case ["if", "yes"] if words[:2] == ["if", "take"]:
            return marks("take", words[2:])
    return []


def log_of(model, name, trace):
    """The log of a trace."""
    lines, around = head(model, name), blocks_of(model)
    for line in trace:
        match line.split():
            case [_, "kernel", *_]:
                continue
            case [first, thread, number, *event] if first.isdigit() and number.isdigit():
                at = int(number) - 1
                told = left(around[at]) if event == ["break"] else said(model[at], event)
                lines += [f"{thread} {name}:{number} {it}" for it in told]
    return "".join(line + "\n" for line in lines)


def main():
    words = argparse.ArgumentParser(usage=__doc__.split("usage: ")[1].splitlines()[0])
    words.add_argument("program")
    words.add_argument("models", nargs="+", type=Path)
    words.add_argument("--to", type=Path, required=True)
    words.add_argument("--runs", type=int, default=3)
    words.add_argument("--limit", type=int, default=160)
    given = words.parse_args()
    for path in given.models:
        model = path.read_text().splitlines()
        for run in range(1, given.runs + 1):
            call = [given.program, "run", "--seed", str(run), "--limit", str(given.limit), path]
            trace = subprocess.run(call, capture_output=True, text=True, check=False).stdout
            (given.to / f"{path.stem}.{run}.log").write_text(log_of(model, path.name, trace.splitlines()))


if __name__ == "__main__":
    sys.exit(main())
