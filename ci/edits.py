#!/usr/bin/env python3
"""Says which edits don't apply: wrong code that the prover has to refuse, the wrong rules, the planted bugs, and the
wrong headers.

usage: ci/edits.py
       ci/edits.py --try [--after-ci] [CRATE..]

With --try it has the prover try the edits of these crates, or of those of the core where none is named, and says
which are not refused. It needs rt on the PATH, and builds the libraries below the crates where they aren't built;
--after-ci takes them as `rt ci` has left them. A check begins with what `rt check` kept. RT_JOBS says how many checks go
side by side. edit_files.py says what an edit is, edit_trials.py how it is judged. The status is 1 where an edit doesn't
apply or isn't refused.
"""

import sys

from edit_files import (
    BUGS,
    CRATES,
    HEADERS,
    RULES,
    TOP,
    Stale,
    bug_edits,
    changed_header,
    changed_program,
    changed_rule,
    crate_edits,
    edited_crates,
    header_edits,
    rule_edits,
    self_test_edits,
)
from edit_functions import read_edit
from edit_trials import try_crates

# The core, lowest first: the whole test tries their edits, and audit/edits those of the others.
CORE = (
    "rc_index",
    "rc_entry",
    "rc_ring",
    "rc_lang",
    "rc_read",
    "rc_split",
    "rc_rules",
    "rc_verify",
    "rc_world",
    "rc_admit",
    "rc_device",
    "rc_run",
    "rc_report",
)


def try_edit(edit):
    if edit.parent == BUGS:
        changed_program(edit)
    elif edit.parent == HEADERS:
        changed_header(edit)
    elif edit.parent == RULES:
        changed_rule(edit, CRATES)
    else:
        read_edit(edit)


def stale_edits():
    """Says which edits don't apply, and returns whether there are such."""
    kinds = [crate_edits(it) for it in {*edited_crates(), *CORE}]
    kinds += [self_test_edits(), rule_edits(), bug_edits(), header_edits()]
    stale = 0
    for edit in (it for kind in kinds for it in kind):
        try:
            try_edit(edit)
        except Stale as why:
            stale += 1
            print(f"{edit.relative_to(TOP)}: {why}", file=sys.stderr)
    if stale or not all(kinds):
        print(f"edits that don't apply: {stale}", file=sys.stderr)
    return stale > 0 or not all(kinds)


def main():
    words = sys.argv[1:]
    if not words:
        return int(stale_edits())
    crates = [it for it in words[1:] if it != "--after-ci"]
    if words[0] != "--try" or set(crates) - set(edited_crates()):
        sys.exit(__doc__)
    return int(not try_crates(crates or CORE, "--after-ci" in words))


if __name__ == "__main__":
    sys.exit(main())
