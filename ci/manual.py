#!/usr/bin/env python3
"""Holds the commands and options of the manual page against the words that the program takes.

usage: ci/manual.py [PROGRAM]

Without PROGRAM the words are those of the source, crates/rc_console/src/usage.rt; with it those that its --help prints. The
status is 1 where a command or an option is on one side alone, or where mandoc, if it is there, warns of the page.
"""

import re
import shutil
import subprocess
import sys
from pathlib import Path

TOP = Path(__file__).resolve().parent.parent
PAGE = TOP / "docs" / "ringcheck.1"
WORDS = TOP / "crates" / "rc_console" / "src" / "usage.rt"

# What every command takes.
EVERYWHERE = {"help", "version"}


def of_page():
    """The options of each command, as the section COMMANDS of the page has them."""
    section = PAGE.read_text().split("\n.SH COMMANDS\n")[1].split("\n.SH ")[0]
    parts = re.split(r"^\.SS (\S+)$", section, flags=re.MULTILINE)[1:]
    tags = re.compile(r"^\.TP\n\.BI? \\-\\-([a-z-]+)", re.MULTILINE)
    return {name: set(tags.findall(text)) for name, text in zip(parts[::2], parts[1::2])}


def of_source():
    """The same, as the source describes them: a function for each command, and for words that it takes."""
    functions = {re.match(r"\w+", text)[0]: text for text in re.split(r"^(?:pub )?fn ", WORDS.read_text(), flags=re.MULTILINE)[1:]}

    def options(text):
        own = re.findall(r'(?:\.long\(|described_\w+\(alloc, )"([a-z-]+)"', text)
        called = re.findall(r"(described_\w+)\(alloc\b", text)
        return set(own).union(*(options(functions[name]) for name in called))

    found = {"help": set()}
    for text in functions.values():
        names = re.findall(r'Command::new\(alloc, "(\w+)"\)', text)
        if names and names != ["ringcheck"]:
            found[names[0]] = options(text)
    return found


def of_program(program):
    """The same, as the program prints them."""
    def told(*words):
        return subprocess.run([program, *words], capture_output=True, text=True, check=True).stdout

    commands = re.findall(r"^  ([a-z]+) ", told("--help").split("Commands:")[1].split("Options:")[0], re.MULTILINE)
    options = {name: set(re.findall(r"--([a-z-]+)", told(name, "--help"))) for name in commands if name != "help"}
    return {"help": set(), **{name: found - EVERYWHERE for name, found in options.items()}}


def differences(page, program):
    """What is on one side alone."""
    for name in sorted(page.keys() | program.keys()):
        if name not in program:
            yield f"the manual page has the command {name}, and the program hasn't"
        elif name not in page:
            yield f"the program has the command {name}, and the manual page hasn't"
        else:
            for option in sorted(page[name] ^ program[name]):
                side = "the manual page" if option in page[name] else "the program"
                yield f"only {side} has --{option} of {name}"


def warnings():
    """What mandoc says of the page."""
    if shutil.which("mandoc") is None:
        return []
    lint = subprocess.run(["mandoc", "-T", "lint", PAGE], capture_output=True, text=True, check=False)
    return lint.stdout.splitlines()


def main():
    if len(sys.argv) > 2:
        sys.exit(__doc__)
    told = of_program(sys.argv[1]) if sys.argv[1:] else of_source()
    found = [*differences(of_page(), told), *warnings()]
    for line in found:
        print(line, file=sys.stderr)
    return 1 if found else 0


if __name__ == "__main__":
    sys.exit(main())
