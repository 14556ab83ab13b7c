#!/usr/bin/env python3
"""Compares the models of rc_edge_tests with the files of examples/, or writes them.

usage: ci/examples.py [--write]

No code can read a file while it is compiled, so crates/rc_edge_tests/src/programs.rt has a constant for each program of
examples/ that a test names, named as its file. Without --write nothing is changed, and the status is 1 where a model of
the crate differs from its file by so much as a byte, one is missing, or one is there that no test names.
"""

import difflib
import re
import sys
from pathlib import Path

TOP = Path(__file__).resolve().parent.parent
EXAMPLES = TOP / "examples"
CRATES = TOP / "crates"


def written(character):
    """A character as it is written in a text of Rattle."""
    if character in '\\"':
        return "\\" + character
    if character == "\t":
        return "\\t"
    return character if character == "\n" or " " <= character <= "~" else f"\\u{{{ord(character):x}}}"


def literal(path):
    """The bytes of a file as a text of Rattle. Its lines begin at the left, as in the file."""
    text = path.read_bytes().decode()
    # After a backslash at a line's end blanks are no part of a text.
    start = "" if text[:1].isspace() else "\\\n"
    return '"' + start + "".join(map(written, text)) + '"'


def constants(paths):
    """A constant for each file, named as it is."""
    return "".join(f"\npub const {path.stem.upper()}: &str = {literal(path)};\n" for path in sorted(paths))


def named():
    """The words of capitals in the files that use the crate."""
    texts = [path.read_text() for path in CRATES.glob("*/src/**/*.rt")]
    return {word for text in texts if "crate::programs::" in text for word in re.findall(r"\b[A-Z_]+\b", text)}


def programs():
    """The file of the crate with the programs."""
    words = named()
    paths = [path for path in EXAMPLES.glob("*.rc") if path.stem.upper() in words]
    return "//! The programs of examples/ that tests use, each as its file has it.\n" + constants(paths)


def wanted_files():
    """The files of the crate that have texts, by their names."""
    return {"rc_edge_tests/src/programs.rt": programs()}


def differences(path, wanted):
    """How the file of the crate differs from what the examples make of it, line by line."""
    found = path.read_bytes().decode() if path.is_file() else ""
    lines = found.split("\n"), wanted.split("\n")
    return list(difflib.unified_diff(*lines, str(path.relative_to(TOP)), "examples", lineterm=""))


def main():
    if sys.argv[1:] not in ([], ["--write"]):
        sys.exit(__doc__)
    status = 0
    for name, wanted in wanted_files().items():
        if sys.argv[1:]:
            (CRATES / name).write_bytes(wanted.encode())
        elif found := differences(CRATES / name, wanted):
            print("\n".join(["the models of rc_edge_tests differ from examples/; ci/examples.py --write writes them anew:", *found]), file=sys.stderr)
            status = 1
    return status


if __name__ == "__main__":
    sys.exit(main())
