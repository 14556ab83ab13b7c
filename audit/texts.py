#!/usr/bin/env python3
"""Writes random texts whose threads wait for each other in many ways. Most of them are accepted.

usage: audit/texts.py SEED

A text has up to six nops in flight. Each belongs to a thread or to the pool. A thread submits and reaps its own,
takes one from the pool and submits it, reaps for all and puts what it reaped, waits for the pool, counts, or ends after one
round. It waits with the lock held or with a hold of the lock for each look. ci/hangs --generated runs such texts.
"""

import random
import sys

HEAD = ["ringcheck 3"]


def block(head, *bodies):
    """The lines of a block with these lists of lines in it."""
    return [head, *(line for body in bodies for line in body), "}"]


def submits(number, q):
    """An entry is queued, and submitted until nothing is left."""
    tries = block(f"loop keeps q:{q} {{", ["r = submit"], block("if sq_ready == 0 {", ["break"]))
    return ["get_sqe", "prep_nop", f"set_data64 {number}", *tries]


def looks(cases):
    """A look at the front completion, with these arms by user data."""
    arms = [block(f"case {number} {{", ["cqe_seen"], body) for number, body in cases.items()]
    return block("peek_cqe r {", *arms, block("other {"), block("none {"))


def waits(rng, body, kept):
    """A loop round what is looked at, with the lock held all the time or taken for each look."""
    if rng.random() < 0.3:
        return block("lock {", block(f"loop keeps {kept} q:0 {{".replace("  ", " "), body))
    more = ["s = submit"] if rng.random() < 0.3 else []
    return block(f"loop keeps {kept} {{".replace("  ", " "), block("lock {", more, body))


def owner(rng, numbers, q):
    """Submits its own request and reaps it, once or for ever."""
    number = rng.choice(numbers)
    kept = f"t:{number} c:1"
    counts = ["x = x + 1"] * rng.randrange(3)
    body = [*counts, *block("lock {", submits(number, q)), *waits(rng, looks({number: ["break"]}), "")]
    rounds = body if rng.random() < 0.2 else block(f"loop keeps {kept} {{", body)
    return kept, rounds


def submitter(rng, numbers, q):
    """Takes what the pool has, and submits it."""
    number = rng.choice(numbers)
    takes = block(f"if take t:{number} c:1 {{", submits(number, q))
    return "", block("loop keeps {", block("lock {", takes))


def reaper(rng, numbers, _):
    """Reaps for all, and puts what it reaped."""
    return "", waits(rng, looks({number: [f"put t:{number} c:1"] for number in numbers if rng.random() < 0.9}), "")


def taker(rng, numbers, _):
    """Waits for an item of the pool, and gives it back or keeps it."""
    kept = f"t:{rng.choice(numbers)} c:1"
    gives = [f"put {kept}"] if rng.random() < 0.8 else []
    body = waits(rng, block(f"if take {kept} {{", gives, ["break"]), "")
    return "", body if rng.random() < 0.5 else block("loop keeps {", body)


def counter(rng, _numbers, _q):
    """Counts, up to a number or for ever."""
    end = block(f"if x >= {rng.choice([10, 1000, 100000])} {{", ["break"]) if rng.random() < 0.5 else []
    return "", block("loop keeps {", ["x = x + 1"], end)


def text(seed):
    """The text of a seed."""
    rng = random.Random(seed)
    entries = rng.choice([1, 2, 4, 8])
    numbers = list(range(1, rng.randint(1, min(6, 2 * entries)) + 1))
    lines = [*HEAD, f"ring {entries}", *(f"token {number} nop" for number in numbers)]
    free = numbers[:]
    for place in range(rng.randint(1, 5)):
        kind = rng.choice([owner, owner, submitter, submitter, reaper, reaper, taker, counter])
        if kind is owner and not free:
            kind = reaper
        items, body = kind(rng, free if kind is owner else numbers, entries)
        if kind is owner:
            free = [number for number in free if f"t:{number} " not in items + " "]
        lines += block(f"thread t{place} holds {items} {{".replace("  ", " "), body)
    if free and rng.random() < 0.9:
        gives = [f"put t:{number} c:1" for number in free]
        held = " ".join([*(f"t:{number}" for number in free), f"c:{len(free)}"])
        lines += block(f"thread giver holds {held} {{", block("lock {", gives))
    return "\n".join(lines) + "\n"


if __name__ == "__main__":
    if len(sys.argv) != 2 or not sys.argv[1].isdigit():
        sys.exit(__doc__)
    print(text(int(sys.argv[1])), end="")
