"""Tries the edits of crates: as many at once as edit different functions, each judged by what the prover says of these.

A function is proved over the contracts of those that it calls, and not over their code, so what an edit breaks in one
function fails no other. One that calls a function that isn't proved waits for it: that is no refusal, and no proof either,
so its edit is tried again in a check in which none of those is edited. What the judge takes as given is seen at each
check: a function that no edit edits may not fail by itself.
"""

import os
import re
from concurrent.futures import ThreadPoolExecutor
from dataclasses import dataclass

from edit_checks import Failed, build_below, check, kept_work
from edit_files import CRATES, EDITS, SELF_TEST_CRATE, TOP, Stale, crate_edits, self_test_edits
from edit_functions import Edit, read_edit, texts_of

REFUSED = "refused"
MISSED = "NOT REFUSED: what it edits is still proved"
UNSEEN = "BAD: the check says nothing of a function that it edits"
UNCLEAR = "BAD: only a proof that names what it took away is refused, which says little of the contract"
# The memory, in kB, that a check takes at most, of all but few crates.
MEMORY = 3_500_000


@dataclass
class Tally:
    """The checks of a crate that were made, and the processor seconds that they took."""

    checks: int = 0
    seconds: float = 0.0


def edits_function(edit, name):
    return any(re.fullmatch(it, name) for it in edit.functions)


def overlap(one, other):
    """Whether two edits change the same line."""
    pairs = [(a, b) for path in one.hunks.keys() & other.hunks for a in one.hunks[path] for b in other.hunks[path]]
    return any(a.first <= b.last and b.first <= a.last for a, b in pairs)


def fit(one, other):
    """Whether two edits may be in one check."""
    if one.is_outside or other.is_outside or one.functions & other.functions:
        return False
    if any(edits_function(one, it) for it in other.apart) or any(edits_function(other, it) for it in one.apart):
        return False
    return not overlap(one, other)


def packed(edits):
    """The edits for the next check: the first one, and each further one that fits."""
    batch = []
    for edit in edits:
        if all(fit(edit, it) for it in batch):
            batch.append(edit)
    return batch


def only_of(batch):
    """The functions that a check is to be about: none, which is all, where an edit has to do with others."""
    names = {name for edit in batch for name in edit.only}
    return [] if "" in names or any(it.is_outside for it in batch) else sorted(names)


def stop_on_strays(batch, said):
    """Where a function fails by itself that no edit edits, what is said of the others can't be trusted either."""
    if any(it.is_outside for it in batch):
        return
    failing = [name for name, it in said.functions.items() if it.fails]
    strays = [name for name in failing if not any(edits_function(it, name) for it in batch)]
    if strays:
        raise Failed(f"no edit edits {strays[0]}, which isn't proved by itself, beside {' '.join(it.name for it in batch)}")


def reached(said, names):
    """The functions for which these wait, and those wait in turn."""
    found, left = set(), list(names)
    while left:
        it = said.functions.get(left.pop())
        new = it.waits - found if it else set()
        found |= new
        left += new
    return found


def judged(edit, said):
    """What a check says of an edit; None where what it edits waits for other functions."""
    if edit.is_outside:
        return REFUSED if any(it.fails for it in said.functions.values()) else MISSED
    seen = {name: it for name, it in said.functions.items() if edits_function(edit, name)}
    if any(not any(re.fullmatch(it, name) for name in seen) for it in edit.functions):
        return UNSEEN
    if any(it.fails for it in seen.values()):
        return REFUSED
    if all(it.is_proved for it in seen.values()):
        return MISSED
    waits = reached(said, seen) - edit.apart
    edit.apart |= waits
    return None if waits else UNCLEAR


def try_batch(crate, batch, kept, tally):
    """What one check says of these edits. Where it can't read the code, of each half of them apart."""
    texts = texts_of(crate, batch)
    said = check(crate, texts, only_of(batch), kept)
    tally.checks += 1
    tally.seconds += said.seconds
    unread = said.unread(texts)
    if unread and len(batch) == 1:
        return {batch[0]: f"BAD: it can't be read or compiled: {unread[:300]}"}
    if unread:
        half = len(batch) // 2
        return try_batch(crate, batch[:half], kept, tally) | try_batch(crate, batch[half:], kept, tally)
    stop_on_strays(batch, said)
    found = {edit: judged(edit, said) for edit in batch}
    if len(batch) == 1 and found[batch[0]] is None:
        raise Failed(f"{batch[0].name} alone waits for {' '.join(sorted(batch[0].apart))}")
    return found


def try_all(crate, edits, tally):
    """What the checks say of each edit, in as many as are needed."""
    left, found = list(edits), {}
    with kept_work(crate) as kept:
        while left:
            found |= {edit: it for edit, it in try_batch(crate, packed(left), kept, tally).items() if it}
            left = [it for it in left if it not in found]
    return found


def claim(name):
    """An edit that claims a function and changes nothing."""
    edit = Edit(EDITS / f"{name}.edit", SELF_TEST_CRATE)
    edit.functions.add(name)
    return edit


def self_test():
    """What is wrong with the judge: it has to refuse a wrong edit, and neither one that means the same, nor a claim of
    a function that nothing edits and that calls a wrong one, and to see that it knows nothing of one that isn't there."""
    wrong, equal = (read_edit(next(it for it in self_test_edits() if it.stem == name)) for name in ("wrong", "equal"))
    unedited, missing = claim(f"{SELF_TEST_CRATE}::Indices::is_empty"), claim(f"{SELF_TEST_CRATE}::Indices::is_emp")
    unedited.only.add("Indices::is_empty")
    expected = {wrong: REFUSED, equal: MISSED, unedited: MISSED, missing: UNSEEN}
    tally = Tally()
    found = try_all(SELF_TEST_CRATE, expected, tally)
    lies = [f"it says of {it.name}: {found[it]}" for it, words in expected.items() if found[it] != words]
    return lies + ["nothing waited for another"] * (not unedited.apart), tally


def told(crate):
    """What is to be said of the edits of a crate, and how many aren't refused."""
    tally, lines, edits = Tally(), [], []
    files = crate_edits(crate)
    for file in files:
        try:
            edits.append(read_edit(file))
        except Stale as why:
            lines.append(f"{file.relative_to(TOP)}: BAD: {why}")
    try:
        found = try_all(crate, edits, tally)
        lines += [f"{it.file.relative_to(TOP)}: {words}" for it, words in found.items() if words != REFUSED]
    except Failed as why:
        lines.append(f"{crate}: NOT TRIED: {why}")
    refused = "not all" if lines else "all"
    many = f"{tally.checks} check{'s' * (tally.checks != 1)}, {tally.seconds:.0f} processor seconds"
    return [*lines, f"{crate}: {len(files)} edits, {refused} refused ({many})"], len(lines) if files else 1


def lanes():
    """How many checks go side by side."""
    given = os.environ.get("RT_JOBS", "")
    if given.isdigit() and int(given):
        return int(given)
    with open("/proc/meminfo") as it:
        free = next(int(line.split()[1]) for line in it if line.startswith("MemAvailable:"))
    return max(1, min(len(os.sched_getaffinity(0)), free // MEMORY))


def size_of(crate):
    return sum(it.stat().st_size for it in (CRATES / crate).glob("*/**/*.*") if "out" not in it.parts)


def try_crates(crates, after_ci):
    """Tries the edits of these crates, the largest ones first, and returns whether all are refused."""
    try:
        build_below([*crates, SELF_TEST_CRATE], after_ci)
        lies, tally = self_test()
    except (Failed, Stale) as why:
        lies, tally = [str(why)], Tally()
    if lies:
        print("\n".join(["the judge of edits doesn't pass its own test, so no edit was tried", *lies]))
        return False
    print(f"the judge passes its own test ({tally.checks} checks, {tally.seconds:.0f} processor seconds)", flush=True)
    failed, pool = 0, ThreadPoolExecutor(lanes())
    try:
        for run in [pool.submit(told, it) for it in sorted(crates, key=size_of, reverse=True)]:
            lines, number = run.result()
            failed += number
            print("\n".join(lines), flush=True)
    finally:
        # (an interrupt begins no further check)
        pool.shutdown(cancel_futures=True)
    print("edits: all refused" if not failed else f"edits that are not refused, bad or not tried: {failed}")
    return not failed
