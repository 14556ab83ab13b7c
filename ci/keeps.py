#!/usr/bin/env python3
"""Tries `PROGRAM keeps` on the models of examples/ that are accepted, those of examples/explained among them.

usage: ci/keeps.py PROGRAM

Each model is tried as it is, and with the lists of its loops empty. What is printed has to be accepted, to differ in the
lists of loops alone, to keep at least what the author's lists keep, and to be printed again as it is. Empty lists are
tried in four layouts too: indented by tabs, with a comment after each brace, with carriage returns, and without a last
line feed. Then come models with the lists that their loops get: most have a loop that no list helps, or not far. A line
is printed for each model that isn't as it should be. The status is 1 where one isn't.
"""

import re
import subprocess
import sys

from rows_file import EXAMPLES, TOP, rows_below

# How many models there are at least that are accepted and have loops.
FEWEST = 25

# A loop's line: up to `keeps`, its items, and from the brace on.
LOOP = re.compile(rb"^([ \t]*loop[ \t]+keeps)([^{#]*)(\{.*)$", re.DOTALL)

# Models, where `;` ends a line, and the lists that their loops get. All else is printed as it is.
HEAD = "ringcheck 1; ring 2; buffer a 16 1; token 7 read a; token 8 nop; "
FLAGGED = "ringcheck 2; ring 2; token 7 nop; token 8 nop; "
CHOOSING = "ringcheck 5; ring 2; token 7 nop; token 8 other; "
QUEUE = "ringcheck 1; ring 4 left 4; token 8 nop; "
TOKENS = [10**12 + n for n in range(15)]
LONG = "ringcheck 1; ring 1; " + "".join(f"token {token} nop; " for token in TOKENS)
MOST = "".join(f" t:{token}" for token in TOKENS[1:])
LISTS = [
    (
        "a list that is too long",
        HEAD + "thread t0 holds t:8 {; loop keeps a:1 t:8 c:1 {; }; }",
        [" t:8 "],
    ),
    (
        "other words and the same items",
        HEAD + "thread t0 holds a:1 t:8 {; loop keeps  t:8\ta:1 {; }; }",
        ["  t:8\ta:1 "],
    ),
    (
        "a loop whose body is refused",
        HEAD + "thread t0 holds a:1 t:8 c:1 {; loop keeps {; lock {; get_sqe; prep_nop; set_data64 8; }; }; }",
        [" a:1 t:8 c:1 "],
    ),
    (
        "loops in loops",
        HEAD + "thread t0 holds a:1 t:8 c:1 {; loop keeps {; loop keeps {; loop keeps {; break; }; "
        "lock {; peek_cqe r {; case 7 {; }; other {; }; none {; }; }; }; }; }; }",
        [" a:1 t:8 c:1 "] * 3,
    ),
    (
        "a loop that loses what it needs, around another",
        QUEUE + "thread t0 holds t:8 c:1 {; loop keeps {; loop keeps {; break; }; "
        "lock {; if sq_space_left >= 1 {; get_sqe; prep_nop; set_data64 8; }; }; }; }",
        [" t:8 c:1 ", " t:8 c:1 "],
    ),
    (
        "a queue that grows to the ring",
        QUEUE + "thread t0 holds t:8 c:1 {; lock {; loop keeps q:0 {; }; }; }",
        [" t:8 c:1 q:4 "],
    ),
    (
        "a loop with an open entry",
        HEAD + "thread t0 holds c:2 {; lock {; get_sqe; loop keeps c:2 q:2 {; }; }; }",
        [" c:2 q:2 "],
    ),
    (
        "a loop that ends with an open entry",
        HEAD + "thread t0 holds c:2 {; lock {; loop keeps {; get_sqe; }; }; }",
        [" "],
    ),
    (
        "a loop below a line that is refused",
        HEAD + "thread t0 holds c:2 {; r = submit; loop keeps a:1 {; }; }; thread t1 holds t:8 {; loop keeps {; }; }",
        [" a:1 ", " t:8 "],
    ),
    (
        "a loop that nothing reaches",
        HEAD + "thread t0 holds c:2 {; loop keeps {; }; loop keeps t:8 {; }; }",
        [" c:2 ", " t:8 "],
    ),
    (
        "a list that doesn't fit its line",
        LONG + f"thread t0 holds{MOST} {{; loop keeps c:1 {{  # with a comment after the brace; }}; }}",
        [" c:1 "],
    ),
    (
        "a free choice, of which each branch loses what the next round needs",
        CHOOSING + "thread t0 holds t:7 t:8 c:1 {; loop keeps {; lock {; if any {; put t:7; } else {; put t:8; }; }; }; }",
        [" t:7 t:8 c:1 "],
    ),
    (
        "a free choice that loses nothing",
        CHOOSING + "thread t0 holds t:7 t:8 c:1 {; loop keeps {; if any {; break; }; if any {; x = 1; }; }; }",
        [" t:7 t:8 c:1 "],
    ),
    (
        "a flag that is set",
        FLAGGED + "thread t0 holds t:7 t:8 c:1 {; h = 1; loop keeps when h {; if h == 0 {; break; }; }; }",
        [" t:7 t:8 c:1 when h "],
    ),
    (
        "a flag that says what is out",
        FLAGGED + "thread t0 holds t:7 t:8 c:2 {; h = 1; loop keeps when h {; lock {; if h != 0 {; "
        "get_sqe; prep_nop; set_data64 7; loop keeps {; r = submit; if sq_ready == 0 {; break; }; }; h = 0; "
        "} else {; peek_cqe r {; case 7 {; cqe_seen; h = 1; }; other {; }; none {; }; }; }; }; }; }",
        [" t:8 c:1 when h t:7 c:1 ", " t:8 c:1 q:1 "],
    ),
]


def answer(program, words, text):
    """What the program prints for a model, and its status."""
    done = subprocess.run([program, *words], input=text, capture_output=True, timeout=60, check=False)
    return done.stdout + done.stderr, done.returncode


def is_accepted(program, text):
    return answer(program, ["check"], text)[1] == 0


def lists_of(text):
    """The lists of the loops of a text."""
    return [loop[2] for loop in map(LOOP.match, text.split(b"\n")) if loop]


def without_lists(text):
    """A model without the lists of its loops."""
    return b"\n".join(LOOP.sub(rb"\1\3", line) for line in text.split(b"\n"))


def emptied(text):
    """A model with the lists of its loops empty, but for the flags that they name."""
    def empty(loop):
        flag = re.search(rb"[ \t]when[ \t]+\w+", loop[2])
        return loop[1] + (flag[0] if flag else b"") + b" " + loop[3]

    return b"\n".join(LOOP.sub(empty, line) for line in text.split(b"\n"))


def counts(words):
    """How many there are of each item."""
    found = {}
    for word in words.split():
        name, colon, number = word.partition(b":")
        if name == b"t":
            found[word] = 1
        elif colon:
            found[name] = int(number)
    return found


def entries_of(text):
    """How many entries the ring of a model has, which a loop without a bound of the queue allows."""
    asked = int(re.search(rb"^[ \t]*ring[ \t]+(\d+)", text, re.MULTILINE)[1])
    return 1 << (asked - 1).bit_length()


def sides(listed, entries):
    """What a list keeps while the flag is 0, and while it isn't; and the bound of the queue."""
    zero, more = map(counts, listed.partition(b" when ")[::2])
    queue = zero.pop(b"q", entries)
    other = {name: zero.get(name, 0) + more.get(name, 0) for name in zero.keys() | more.keys()}
    return zero, other, queue


def is_less(new, old, entries):
    """Whether a list keeps less than another."""
    (*news, queue), (*olds, most) = sides(new, entries), sides(old, entries)
    fewer = any(side.get(name, 0) < count for side, kept in zip(news, olds) for name, count in kept.items())
    return fewer or queue > most


def layouts(text):
    """The same model in other layouts."""
    yield "indented by tabs", re.sub(rb"^", b"\t", text, flags=re.MULTILINE)
    yield "with comments", re.sub(rb"\{[ \t]*$", b"{ # why { a:1", text, flags=re.MULTILINE)
    yield "with carriage returns", text.replace(b"\n", b"\r\n")
    yield "without a last line feed", text.rstrip(b"\n")


def wrong_with(program, old, text):
    """What is wrong with what is printed of a model, beside one with the lists of its author."""
    new, status = answer(program, ["keeps"], text)
    if status != 0:
        yield f"status {status}"
        return
    if not is_accepted(program, new):
        yield "isn't accepted"
    if without_lists(new) != without_lists(text):
        yield "differs in more than the lists"
    if any(is_less(*lists, entries_of(old)) for lists in zip(lists_of(new), lists_of(old))):
        yield "keeps less than its author did"
    if answer(program, ["keeps"], new)[0] != new:
        yield "is changed again"


def accepted(program):
    """Each model that is accepted and has loops, with its place."""
    explained = [row for row in rows_below(EXAMPLES / "explained") if row.words[0] == "check" and row.status == 0]
    places = {row.text.encode("latin-1"): row.place for row in explained}
    places |= {path.read_bytes(): path.relative_to(TOP) for path in sorted(EXAMPLES.glob("**/*.rc"))}
    return [(place, text) for text, place in places.items() if lists_of(text) and is_accepted(program, text)]


def wrong_texts(program, place, old):
    """What is wrong with a model that is accepted, as it is and with empty lists."""
    empty = emptied(old)
    for how, text in [("as it is", old), ("emptied", empty), *layouts(empty)]:
        yield from (f"{place} {how}: {what}" for what in wrong_with(program, old, text))


def wrong_lists(program):
    """The models whose loops don't get their lists."""
    for name, words, wanted in LISTS:
        text = "".join(f"{line}\n" for line in words.split("; ")).encode()
        new, status = answer(program, ["keeps"], text)
        lists = [listed.decode() for listed in lists_of(new)]
        if (status, lists, without_lists(new)) != (0, wanted, without_lists(text)):
            yield f"{name}: {status} {lists}"


def main():
    if len(sys.argv) != 2:
        sys.exit(__doc__)
    program = sys.argv[1]
    texts = accepted(program)
    found = [line for place, text in texts for line in wrong_texts(program, place, text)]
    found += wrong_lists(program)
    if len(texts) < FEWEST:
        found.append(f"{len(texts)} texts were tried")
    for line in found:
        print(line, file=sys.stderr)
    return 1 if found else 0


if __name__ == "__main__":
    sys.exit(main())
