#!/usr/bin/env python3
"""Holds what the crate rc_sentences says of each cause against docs/causes.md, or writes it there.

usage: ci/causes.py [--write]

The crate has two sentences for each read fault and each cause of a refusal: why it is a mistake, and what to write.
docs/causes.md has them below the heading of each, as a paragraph `**In short.** SENTENCE **Then:** FIX`. Without --write
nothing is changed, and the status is 1 where a paragraph differs from the crate's, but for where its lines end, or is
missing on either side.
"""

import re
import sys
import textwrap
from pathlib import Path

TOP = Path(__file__).resolve().parent.parent
DOCUMENT = TOP / "docs" / "causes.md"
SOURCE = TOP / "crates" / "rc_sentences" / "src" / "causes.rt"
FUNCTION = re.compile(r"^fn (sentence|fix)_of_(read|rule)\b.*?^}", re.M | re.S)
ARM = re.compile(r'\w+::(\w+) =>\s*\{?\s*"((?:[^"\\]|\\.)*)"')
HEADING = re.compile(r"^### [PV]\d+ (\w+)\n\n(.*(?:\n.+)*)\n", re.M)


def said():
    """What the crate says: the sentence and the fix by the name of the cause."""
    texts = {"sentence": {}, "fix": {}}
    for function in FUNCTION.finditer(SOURCE.read_text()):
        texts[function[1]].update((name, re.sub(r"\\(.)", r"\1", text)) for name, text in ARM.findall(function[0]))
    sentences, fixes = texts["sentence"], texts["fix"]
    if sentences.keys() != fixes.keys():
        sys.exit("causes with one sentence of two: " + ", ".join(sorted(sentences.keys() ^ fixes.keys())))
    return {name: f"**In short.** {sentences[name]} **Then:** {fixes[name]}" for name in sentences}


def filled(text):
    return textwrap.fill(text, width=120, break_long_words=False, break_on_hyphens=False)


def main():
    if sys.argv[1:] not in ([], ["--write"]):
        sys.exit(__doc__)
    wanted, document = said(), DOCUMENT.read_text()
    found = {name: paragraph for name, paragraph in HEADING.findall(document)}
    missing = sorted(wanted.keys() ^ found.keys())
    differs = [name for name in wanted if name in found and found[name].split() != wanted[name].split()]
    if missing:
        print("causes that stand on one side alone:", ", ".join(missing), file=sys.stderr)
    if sys.argv[1:] and not missing:
        for name in differs:
            document = document.replace(f" {name}\n\n{found[name]}\n", f" {name}\n\n{filled(wanted[name])}\n")
        DOCUMENT.write_text(document)
        return 0
    for name in differs:
        print(f"docs/causes.md says of {name}:\n{found[name]}\nand the crate:\n{filled(wanted[name])}", file=sys.stderr)
    return 1 if missing or differs else 0


if __name__ == "__main__":
    sys.exit(main())
