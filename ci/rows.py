#!/usr/bin/env python3
"""Compares what a built program answers with rows: words, a model on standard input, and all that has to come out.

usage: ci/rows.py PROGRAM [--write] [FILE..]

Without FILE the rows are those of all files of rows below examples/, and each model beside one has to be in a row.
ci/rows_file.py says how a file of rows is written. Each difference is printed, and how many rows there are. The status is
1 where one is wrong, and 2 where a file can't be read.

--write writes what is printed into the rows that differ, into those that have no answer yet, and into the files that `>>`
names: read the difference before you commit it. A row where any lines may be keeps as many before and after them. What
`--json` answers to a line of a table isn't written: run it again without --write.
"""

import difflib
import os
import re
import subprocess
import sys
import tempfile
from concurrent.futures import ThreadPoolExecutor
from dataclasses import dataclass
from pathlib import Path

from rows_file import ANY_END, ANY_LINES, ANY_PART, EXAMPLES, TOP, File, Row, Wrong, status_of

SECONDS = 60

# How many lines of a difference are shown, and how long a line is.
SHOWN = 12
WIDTH = 200

# How long an object is at most that is written on one line.
OBJECT = 120

# Where an object is cut: before a comma, but not within what is said of a line.
CUT = re.compile(r'(?=,(?:\{|"(?!flag"|line":\d+\})))')

ANY = {ANY_LINES: r"(?:.*\n)*?", ANY_END: r".*\n", ANY_PART: r".*"}
ANY_SHOWN = {ANY_LINES: "..\n", ANY_END: "..\n", ANY_PART: ".."}


@dataclass
class Answer:
    """What the program answers, or that it hangs."""

    output: str = ""
    errors: str = ""
    status: int = None
    hangs: bool = False


def answer_of(program, folder, row):
    """What the program answers to a row."""
    words = [word.encode("latin-1") for word in row.words]
    how = {"input": row.text.encode("latin-1"), "capture_output": True, "cwd": folder, "timeout": SECONDS}
    try:
        done = subprocess.run([program, *words], check=False, **how)
    except subprocess.TimeoutExpired:
        return Answer(hangs=True)
    return Answer(done.stdout.decode("latin-1"), done.stderr.decode("latin-1"), done.returncode)


def fits(output, wanted):
    """Whether an output is the wanted one, of which parts may be any."""
    pattern = "".join(ANY[part] if part in ANY else re.escape(part) for part in wanted)
    return re.fullmatch(pattern, output) is not None


def is_right(row, answer):
    """Whether an answer is that of a row."""
    return fits(answer.output, row.output) and (answer.errors, answer.status) == (row.errors, row.status)


def difference(name, wanted, found):
    """How two texts differ, in a few lines."""
    lines = wanted.splitlines(), found.splitlines()
    shown = list(difflib.unified_diff(*lines, f"{name}, wanted", f"{name}, printed", lineterm="", n=0))
    shown = shown or [f"{name} differs in its bytes: wanted {wanted[-60:]!r}, printed {found[-60:]!r}"]
    rest = [f".. {len(shown) - SHOWN} lines more"] if len(shown) > SHOWN else []
    return [line[:WIDTH] for line in shown[:SHOWN]] + rest


def differences(row, answer):
    """How an answer differs from that of a row, in lines."""
    shown = [f"{row.place}: $ {' '.join(row.words)[:100]!r}"[:300]]
    if answer.hangs:
        return [*shown, "it hangs"]
    if not fits(answer.output, row.output):
        wanted = "".join(ANY_SHOWN[part] if part in ANY else part for part in row.output)
        shown += difference("output", wanted, answer.output)
    if answer.errors != row.errors:
        shown += difference("errors", row.errors, answer.errors)
    if answer.status != row.status:
        shown.append(f"the status is {answer.status}, and not {row.status}")
    return shown


def output_lines(output):
    """An output as the lines of a row. A long object is cut."""
    lines = output.split("\n")
    written = []
    for line in lines[:-1]:
        parts = CUT.split(line) if line.startswith("{") and len(line) > OBJECT else [line]
        written += [f">| {part}" for part in parts[:-1]] + [f"> {parts[-1]}"]
    return written + ([f">| {lines[-1]}"] if lines[-1] else [])


def shape(row):
    """How many lines are wanted before any lines, and how many after; None where no line may be any."""
    if not any(part in ANY for part in row.output):
        return None
    at = row.output.index(ANY_LINES) if ANY_LINES in row.output else -1
    before, after = row.output[:at], row.output[at + 1 :]
    if at < 0 or any(part in ANY for part in before + after):
        raise Wrong(f"{row.place}: write this row by hand, since more than one part of its output may be any")
    return "".join(before).count("\n"), "".join(after).count("\n")


def answer_lines(row, answer):
    """An answer as the lines of a row, where as many lines may be any as before."""
    kept = shape(row)
    if row.file:
        lines = [f">> {row.file.relative_to(TOP)}"]
    elif kept:
        lines = answer.output.splitlines(keepends=True)
        before, after = "".join(lines[: kept[0]]), "".join(lines[len(lines) - kept[1] :])
        lines = [*output_lines(before), ">..", *output_lines(after)]
    else:
        lines = output_lines(answer.output)
    errors = [f"! {line}" for line in answer.errors.splitlines()]
    return [*lines, *errors, f"status {answer.status}"]


def table_line(row, answer, line):
    """A line of a table with the answer that is printed."""
    kept = shape(row)
    lines = answer.output.splitlines()
    shown = [*lines[: kept[0]], "..", *lines[len(lines) - kept[1] :]] if kept else lines
    if status_of(shown[0 if "--explain" in row.words else -1]) != answer.status:
        raise Wrong(f"{row.place}: write this line by hand")
    return f"{line.rpartition(' => ')[0]} => {' / '.join(shown)}"


def write_row(row, answer, lines):
    """Writes the answer of a row into the lines of its file."""
    if answer.hangs:
        raise Wrong(f"{row.place}: it hangs")
    if row.is_of_table:
        if "--json" not in row.words:
            lines[row.begins - 1] = table_line(row, answer, lines[row.begins - 1])
        return
    written = answer_lines(row, answer)
    first = row.lines[0] if row.lines else row.ends + 1
    for at in reversed(row.lines):
        del lines[at - 1]
    lines[first - 1 : first - 1] = written
    if row.file:
        row.file.parent.mkdir(exist_ok=True)
        row.file.write_bytes(answer.output.encode("latin-1"))


def write(path, wrong):
    """Writes the rows of a file that are wrong, from its end on, and answers why some weren't written."""
    lines = path.read_bytes().decode("latin-1").split("\n")
    left = []
    for row, answer in reversed(wrong):
        try:
            write_row(row, answer, lines)
        except Wrong as why:
            left.append(str(why))
    path.write_bytes("\n".join(lines).encode("latin-1"))
    return left


def read_files(paths, folder, is_written):
    """Each file of rows, with a folder of its own."""
    files, places = [], {}
    for number, path in enumerate(paths):
        below = folder / str(number)
        below.mkdir()
        files.append(File(path, below, is_written))
        files[-1].read()
        for name, place in files[-1].names:
            if name in places:
                raise Wrong(f"{place}: {name} stands at {places[name]} too")
            places[name] = place
    return files


def without_row(files):
    """The models beside a file of rows that no row has as its input."""
    used = {TOP / name for file in files for name in file.used if name.endswith(".rc")}
    folders = {path.parent for path in EXAMPLES.glob("*/*.rows")}
    beside = sorted(path for folder in folders for path in folder.glob("**/*.rc"))
    return [path for path in beside if path not in used]


def main():
    words = sys.argv[1:]
    is_written = "--write" in words
    words = [word for word in words if word != "--write"]
    if not words or words[0].startswith("-"):
        sys.exit(__doc__)
    program = Path(words[0]).resolve()
    paths = [Path(word) for word in words[1:]] or sorted(EXAMPLES.glob("**/*.rows"))
    paths = [Path(os.path.relpath(path)) for path in paths]
    with tempfile.TemporaryDirectory() as folder:
        try:
            files = read_files(paths, Path(folder), is_written)
            each = [(file.folder, row) for file in files for row in file.rows]
            with ThreadPoolExecutor(os.cpu_count()) as pool:
                answers = list(pool.map(lambda pair: answer_of(program, *pair), each))
            wrong = [(row, answer) for (_, row), answer in zip(each, answers) if not is_right(row, answer)]
        except Wrong as why:
            print(why, file=sys.stderr)
            return 2
    if is_written:
        left = [why for path in paths for why in write(path, [pair for pair in wrong if pair[0].path == path])]
        print("\n".join([*left, f"{len(each)} rows, {len(wrong) - len(left)} written"]))
        return 1 if left else 0
    for row, answer in wrong:
        print("\n".join(differences(row, answer)))
    alone = [] if words[1:] else without_row(files)
    for path in alone:
        print(f"{path.relative_to(TOP)}: no row has this model")
    print(f"{len(each)} rows, {len(wrong)} wrong; ci/rows.py PROGRAM --write writes them anew" if wrong else f"{len(each)} rows, none wrong")
    return 1 if wrong or alone or not each else 0


if __name__ == "__main__":
    sys.exit(main())
