"""The files of edits, and what they make of the files that they name.

An edit is a file NAME.edit. After lines that begin with '#' it has pairs of lines 'old: TEXT' and 'new: TEXT' for the
file that the last line 'file: PATH' named. Each old TEXT is there exactly once, as the pairs before it left the file.

edits/CRATE         wrong code of a crate, which the prover has to refuse; paths are those in the crate, and each TEXT
                    is as it is
ci/edit_self_test   the same of one crate, by which ci/edits.py tests itself: one is to be refused, and one isn't
audit/rules         wrong rules; paths are below crates/, and a \\n in a TEXT is a line's end
audit/bugs          planted bugs; paths are below examples/follow, and a \\n is the same
audit/headers.edits wrong headers, one after another, each after a line 'edit: NAME'; paths are below c/, and a \\n is the same
"""

from dataclasses import dataclass
from pathlib import Path

TOP = Path(__file__).resolve().parent.parent
CRATES = TOP / "crates"
EDITS = TOP / "edits"
SELF_TEST = TOP / "ci" / "edit_self_test"
# The crate that the edits of the self-test are of.
SELF_TEST_CRATE = "rc_index"
RULES = TOP / "audit" / "rules"
BUGS = TOP / "audit" / "bugs"
HEADERS = TOP / "audit" / "headers.edits"
FOLLOWED = TOP / "examples" / "follow"


class Stale(Exception):
    """An edit doesn't apply, or isn't one that can be tried."""


def crate_edits(crate):
    return sorted((EDITS / crate).glob("*.edit"))


def self_test_edits():
    return sorted(SELF_TEST.glob("*.edit"))


def rule_edits():
    return sorted(RULES.glob("*.edit"))


def bug_edits():
    return sorted(BUGS.glob("*.edit"))


@dataclass(frozen=True)
class HeaderEdit:
    """An edit of those in the one file of wrong headers."""

    stem: str
    text: str
    parent = HEADERS

    def read_text(self):
        return self.text

    def relative_to(self, folder):
        return f"{HEADERS.relative_to(folder)}: {self.stem}"


def header_edits():
    edits = HEADERS.read_text().split("\nedit: ")[1:]
    return [HeaderEdit(name, text) for name, _, text in (it.partition("\n") for it in edits)]


def edited_crates():
    """The crates that have edits."""
    return sorted({it.parent.name for it in EDITS.glob("*/*.edit")})


def crate_of(edit):
    """The crate that an edit of edits/ is of."""
    return SELF_TEST_CRATE if edit.parent == SELF_TEST else edit.parent.name


def changed(edit, folder, unescape=lambda text: text):
    """The files of the folder that the edit changes, and what it makes of them."""
    texts = {}
    path = old = None
    for line in edit.read_text().split("\n"):
        word, _, text = line.partition(":")
        text = unescape(text[1:])
        if line.startswith("#") or not line:
            continue
        if word == "file":
            path = folder / text
            if not path.is_file():
                raise Stale(f"there is no file {text}")
            texts.setdefault(path, path.read_text())
        elif word == "old" and path:
            old = text
            times = texts[path].count(old) if old else 0
            if times != 1:
                raise Stale(f"this stands {times} times in {path.relative_to(folder)}: {old[:100]}")
        elif word == "new" and old is not None:
            texts[path] = texts[path].replace(old, text)
            old = None
        else:
            raise Stale(f"this is no line of an edit: {line[:100]}")
    if not texts or old is not None:
        raise Stale("it changes nothing")
    return texts


def changed_crate(edit):
    """As `changed`, of wrong code of a crate."""
    return changed(edit, CRATES / crate_of(edit))


def changed_rule(edit, crates):
    """As `changed`, of a wrong rule, for the crates in this folder."""
    return changed(edit, crates, lambda text: text.replace("\\n", "\n"))


def changed_program(edit):
    """As `changed`, for a planted bug."""
    return changed_rule(edit, FOLLOWED)


def changed_header(edit):
    """As `changed`, for a wrong header."""
    return changed_rule(edit, TOP / "c")
