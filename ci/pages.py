#!/usr/bin/env python3
"""Compares what the documents show of a built program with what it prints.

usage: ci/pages.py PROGRAM [--write]

A block of README.md, of docs/ or of examples/ shows commands if its first line begins with `$ `. Of each line
`$ ./ringcheck WORDS` the lines below, if there are any, up to the next `$ `, are what is printed in the folder of the
repository; a line `..` among them is any lines. What follows `>` in a command, also in one without `$ `, is a file with
what is printed. A command that names a file which isn't there isn't tried.

The status is 1 where something differs. --write writes what is printed; on each side of `..` as many lines as before.
"""

import re
import subprocess
import sys
from pathlib import Path

TOP = Path(__file__).resolve().parent.parent
DOCUMENTS = [TOP / "README.md", *sorted((TOP / "docs").glob("*.md")), *sorted((TOP / "examples").glob("**/*.md"))]

BLOCK = re.compile(r"(?<=^```\n)\$ (?:.*\n)+?(?=```$)", re.MULTILINE)
COMMAND = re.compile(r"^\$ \./ringcheck (.+)\n((?:(?!\$ ).*\n)+)", re.MULTILINE)
TO_FILE = re.compile(r"^(?:\$ )?\./ringcheck (.+) > (\S+)$", re.MULTILINE)

# A word that names a file.
FILE = re.compile(r"[\w./]+\.\w+")

ANY = "..\n"


def printed(program, words):
    """What the program prints for these words, or None if a file of them isn't there."""
    words = words.split(" ")
    if not all((TOP / word).is_file() for word in words if FILE.fullmatch(word)):
        return None
    done = subprocess.run([program, *words], stdin=subprocess.DEVNULL, capture_output=True, text=True, cwd=TOP, check=False)
    return done.stdout + done.stderr


def cut(output, shown):
    """An output with `..` where the lines that are shown have it."""
    shown, lines = shown.splitlines(keepends=True), output.splitlines(keepends=True)
    if ANY not in shown:
        return output
    before = shown.index(ANY)
    after = len(shown) - before - 1
    return "".join([*lines[:before], ANY, *lines[len(lines) - after :]])


def as_printed(program, text):
    """A document with what is printed for its commands."""

    def of_command(found):
        output = printed(program, found[1])
        return found[0] if output is None else f"$ ./ringcheck {found[1]}\n{cut(output, found[2])}"

    return BLOCK.sub(lambda block: COMMAND.sub(of_command, block[0]), text)


def wanted_texts(program):
    """Each document, and each file that a command of one writes, with what should be there."""
    for path in DOCUMENTS:
        text = path.read_text()
        yield path, as_printed(program, text)
        for words, name in TO_FILE.findall(text):
            if (TOP / name).is_file():
                yield TOP / name, printed(program, words)


def main():
    if len(sys.argv) < 2 or sys.argv[2:] not in ([], ["--write"]):
        sys.exit(__doc__)
    program = Path(sys.argv[1]).resolve()
    status = 0
    for path, wanted in wanted_texts(program):
        if wanted is None or path.read_text() == wanted:
            continue
        if sys.argv[2:]:
            path.write_text(wanted)
        else:
            status = 1
            print(f"{path.relative_to(TOP)} shows what isn't printed; ci/pages.py PROGRAM --write writes it anew", file=sys.stderr)
    return status


if __name__ == "__main__":
    sys.exit(main())
