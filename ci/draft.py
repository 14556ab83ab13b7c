#!/usr/bin/env python3
"""Drafts models from the logs of examples/, and holds what the program says of a draft against what it says of the text.

usage: ci/draft.py PROGRAM [--write] [--changed N]

The logs are those of examples/follow, and those of examples/draft, which are runs of the gallery's models (ci/traced.py).
Logs whose names differ only in a number are drafted together. For each group

- the draft is the text of examples/draft, and what standard error says is what stands in its last comments; `--write`
  writes both anew;
- it is the same in whichever order the logs are named, and as JSON;
- the program says that it is accepted exactly where `check` does, and that a log is followed exactly where `follow` does.

Then N logs (300) are cut or changed: a line is left out, made twice, exchanged with another, or a word in it is another
one's. The program has to answer them all, and to be right of those that it drafts. A line is printed for each answer that
isn't as it should be. The status is 1 where one isn't.
"""

import argparse
import json
import random
import re
import subprocess
import sys
import tempfile
from concurrent.futures import ThreadPoolExecutor
from pathlib import Path

TOP = Path(__file__).resolve().parent.parent
FOLLOWED, DRAFTED = TOP / "examples" / "follow", TOP / "examples" / "draft"
# Its C has a mistake, so a draft of it tells of a wrong order as of a right one.
LEFT_OUT = ("early_unlock",)
SECONDS = 60
SAID = "# draft says: "
ACCEPTED = re.compile(r"^accepted; (\d+) of (\d+) logs followed$", re.M)


def called(*words):
    """What the program answers: status, standard output and standard error."""
    said = subprocess.run([str(word) for word in words], capture_output=True, timeout=SECONDS, cwd=TOP, check=False)
    return said.returncode, said.stdout.decode(errors="replace"), said.stderr.decode(errors="replace")


def groups():
    """The logs that are drafted together, by name, relative to the top folder."""
    found = {}
    for log in sorted([*FOLLOWED.glob("*.log"), *DRAFTED.glob("*.log")]):
        name = re.sub(r"\.\d+$", "", log.stem)
        if name not in LEFT_OUT:
            found.setdefault(name, []).append(str(log.relative_to(TOP)))
    return found


def wrongs(program, logs, folder, answer):
    """What is wrong in an answer, beside the program's other commands."""
    status, text, told = answer
    if status not in (0, 1, 2, 3):
        yield f"ends with status {status}: {told[-300:]}"
        return
    model = folder / "model.rc"
    model.write_text(text)
    accepted = ACCEPTED.search(told)
    if not text:
        if accepted or not status:
            yield "has no text, and says that all is well"
        return
    checked = called(program, "check", model)[0]
    if (checked == 0) != bool(accepted):
        yield f"says {told[-200:]!r} of a text of which check has status {checked}"
    if not accepted:
        if not status:
            yield "has status 0 without an accepted text"
        return
    followed = sum(called(program, "follow", model, log)[0] == 0 for log in logs)
    if accepted.groups() != (str(followed), str(len(logs))):
        yield f"says {accepted[0]!r}, and follow follows {followed} of {len(logs)}"
    if (status == 0) != (followed == len(logs)):
        yield f"has status {status}, and follow follows {followed} of {len(logs)}"


def of_group(program, name, logs, write):
    """What is wrong with the draft of a group."""
    with tempfile.TemporaryDirectory() as folder:
        answer = called(program, "draft", *logs)
        yield from wrongs(program, logs, Path(folder), answer)
    status, text, told = answer
    whole = text + "".join(f"{SAID}{line}\n" for line in told.splitlines())
    record = DRAFTED / f"{name}.rc"
    if write:
        record.write_text(whole)
    elif not record.exists() or record.read_text() != whole:
        yield f"isn't what {record.relative_to(TOP)} has (--write writes it anew)"
    for order in (logs[::-1], logs[1:] + logs[:1]):
        if called(program, "draft", *order)[:2] != (status, text):
            yield "is another one in another order of the logs"
    said = called(program, "draft", "--json", *logs)
    try:
        whole = json.loads(said[1])
    except ValueError:
        yield f"is no JSON object: {said[1][:200]!r}"
        return
    if (said[0], whole["text"], len(whole["logs"])) != (status, text, len(logs)):
        yield "is another one as JSON"
    notes = called(program, "draft", "--notes", *logs)
    if not set(notes[1].splitlines()) <= set(whole["notes"]) or notes[0] != bool(notes[1]):
        yield f"has other notes with --notes, with status {notes[0]}"


def changed(text, chance):
    """A log that is cut, or has another line or word."""
    lines = text.splitlines(keepends=True)
    for _ in range(chance.randrange(1, 4)):
        at, other = chance.randrange(len(lines)), chance.randrange(len(lines))
        match chance.randrange(6):
            case 0:
                lines = lines[: max(at, 1)]
                lines[-1] = lines[-1][: chance.randrange(len(lines[-1]) + 1)] or "\n"
            case 1 if len(lines) > 1:
                del lines[at]
            case 2:
                lines.insert(at, lines[at])
            case 3:
                lines[at], lines[other] = lines[other], lines[at]
            case _:
                words, others = lines[at].split(" "), lines[other].split(" ")
                words[chance.randrange(len(words))] = chance.choice([*others, "0", "4294967295", "-5", "zz"]).strip()
                lines[at] = " ".join(words).rstrip("\n") + "\n"
    return "".join(lines)


def of_changed(program, number, texts):
    """What is wrong with the draft of a changed log."""
    chance = random.Random(number)
    with tempfile.TemporaryDirectory() as name:
        log = Path(name) / "changed.log"
        log.write_text(changed(chance.choice(texts), chance))
        for wrong in wrongs(program, [log], Path(name), called(program, "draft", log)):
            yield f"changed log {number} {wrong}"


def main():
    words = argparse.ArgumentParser(usage=__doc__.split("usage: ")[1].splitlines()[0])
    words.add_argument("program", type=Path)
    words.add_argument("--write", action="store_true")
    words.add_argument("--changed", type=int, default=300)
    said = words.parse_args()
    program, found, together = said.program.resolve(), [], groups()
    for name, logs in together.items():
        found += [f"the draft of {name} {wrong}" for wrong in of_group(program, name, logs, said.write)]
    texts = [(TOP / log).read_text() for logs in together.values() for log in logs]
    with ThreadPoolExecutor(4) as pool:
        for wrong in pool.map(lambda number: list(of_changed(program, number, texts)), range(said.changed)):
            found += wrong
    for line in found:
        print(line)
    print(f"{len(together)} drafts and {said.changed} of changed logs: {len(found)} wrong")
    return 1 if found else 0


if __name__ == "__main__":
    sys.exit(main())
