"""Files of rows: words, a model on standard input, and the whole answer of the program.

A file has blocks, which blank lines end. A line that begins with `#` is a comment.

    text SIDES                       a text that the blocks below may name
      ringcheck 4
      ring 2

    file sides.rc                    a file with this text, in the folder in which the program is run
    < SIDES

    folder empty                     a folder there

    row a_put_of_what_is_not_held_is_refused
    $ check                          the words; several such parts, each with its answer, may follow each other
    < SIDES                          the text on standard input, which is empty where nothing makes one
    ~ put t:7 => put c:1
    > refused line 7 V19 NotHeld     standard output, line by line; nothing where no line says anything
    ! ringcheck: no                  standard error, line by line; nothing where no line says anything
    status 1

    row a_text_above_the_words       is the input of each part that makes none of its own
    < SIDES
    $ check
    > accepted
    status 0

    table locks_nest_in_one_order    a line each: what more the text has, and after `=>` the lines of output
    $ check
    $ check --json                   the same as an object
    < SIDES
    + lock sq { / } / }              => accepted
    + lock sq { / lock sq {          => unreadable line 9 P9 BadNesting
    ~ ring 2 => ring x               => unreadable line 2 P4 BadNumber
    cut 17                           => unreadable line 2 P2 BadHead

    table a_step_follows_another
    $ step --schedule t0
    < SIDES
    + thread t0 holds { / x = 1 / }  => 1 t0 4 set 1 / ended after 1 events

These lines make a text, one after another:

    < NAME           adds a text that is named above, or a file of the repository, as examples/pool.rc
      LINE           adds a line (after two blanks)
    + LINE / LINE    adds lines
    * 300 LINE       adds a line, or several with ` / ` between them, so often; % is the number of the turn, from 0
    ~ OLD => NEW     replaces what stands there exactly once

In these, and in words, `\\n`, `\\r`, `\\t`, `\\\\` and `\\xHH` are bytes. No line feed follows a line that ends with
`\\`. In words `\\x20` is a blank, and {NAME} the text of that name.

Lines of output are bytes as they are. Besides `> LINE` there are `>| PART`, a part of a line that the next line goes on
with; `>> NAME`, a whole text as of `<`; `>^ LINE`, a line that begins so; and `>..`, any lines.

In a table the output has one line, or several with ` / ` between them, where `..` is any lines. The status follows from
the first word of the last: accepted, stopped and ended 0, refused and fault 1, unreadable 2; or it is that of a line
`status N` above. Of the words `check --explain` the first line is the verdict, and of `check --explain --json` the object
has to have the same verdict and hint. `cut N` stands for each beginning of the text, up to N bytes, that isn't in a line
above; the last N is the whole text.

Names of rows and tables are unique, and each text and file is used.
"""

import json
import os
import re
import tempfile
from dataclasses import dataclass, field
from pathlib import Path

TOP = Path(__file__).resolve().parent.parent
EXAMPLES = TOP / "examples"

STATUSES = {"accepted": 0, "stopped": 0, "ended": 0, "refused": 1, "fault": 1, "unreadable": 2}
VERDICT = re.compile(r"(?:accepted|(\w+) line (\d+) [PV](\d+) (\w+))")
BYTES = {"n": "\n", "r": "\r", "t": "\t", "\\": "\\"}
ESCAPE = re.compile(r"\\(x[0-9a-f]{2}|.|$)")

# Output of which only a part is known: any lines, the rest of a line, and a part of a line.
ANY_LINES = object()
ANY_END = object()
ANY_PART = object()


class Wrong(Exception):
    """A file of rows isn't as it should be."""


@dataclass
class Row:
    """Words and an input, with the whole answer."""

    name: str
    words: list
    path: Path
    # Where the row begins, its last line, and the lines with its answer: of a table's line that line.
    begins: int
    ends: int
    lines: list = field(default_factory=list)
    is_of_table: bool = False
    text: str = ""
    has_text: bool = False
    output: list = field(default_factory=list)
    # The file that the output is compared with.
    file: Path = None
    errors: str = ""
    status: int = None

    @property
    def place(self):
        return f"{self.path}:{self.begins}: {self.name}"


def unescaped(source):
    """The bytes that are spelled, as characters."""

    def byte(found):
        spelled = found[1]
        if spelled[:1] == "x" and len(spelled) == 3:
            return chr(int(spelled[1:], 16))
        if spelled not in BYTES:
            raise Wrong(f"this is no byte: {found[0]}")
        return BYTES[spelled]

    return ESCAPE.sub(byte, source)


def line_of(source):
    """A line that is spelled, with its line feed."""
    slashes = len(source) - len(source.rstrip("\\"))
    return unescaped(source[:-1]) if slashes % 2 else unescaped(source) + "\n"


def lines_of(source):
    """The lines that are spelled, with ` / ` between them."""
    return "".join(map(line_of, source.split(" / ")))


def repeated(source):
    """Lines that are spelled with a number in front, so often."""
    count, _, lines = source.partition(" ")
    if not count.isdecimal() or not lines:
        raise Wrong("this names no number of times")
    return "".join(lines_of(lines.replace("%", str(turn))) for turn in range(int(count)))


def replaced(text, source):
    """A text with one of its parts replaced."""
    found = re.fullmatch(r"(.+?) =>(?: (.*))?", source)
    if not found:
        raise Wrong("this replaces nothing")
    old, new = unescaped(found[1]), unescaped(found[2] or "")
    if text.count(old) != 1:
        raise Wrong(f"this stands {text.count(old)} times there: {found[1]}")
    return text.replace(old, new)


def as_object(lines, is_explained):
    """A verdict, and the hint below it, as the object of --json. An explanation says more."""
    found = VERDICT.fullmatch(lines[0])
    if not found:
        raise Wrong(f"this is no verdict: {lines[0]}")
    word, line, code, cause = found.groups()
    if not word:
        return ['{"verdict":"accepted"}\n']
    if not is_explained:
        return [f'{{"cause":"{cause}","code":{code},"line":{line},"verdict":"{word}"}}\n']
    hint = json.dumps(lines[1], ensure_ascii=False)
    known = [f'"cause":"{cause}","code":{code},', f'"hint":{hint},', f'"line":{line},', f'"verdict":"{word}"']
    return ["{", *(part for one in known for part in (ANY_PART, one)), ANY_PART, "}\n"]


def status_of(last):
    """The status that goes with the last line of an output."""
    word = last.split(" ")[0]
    if word not in STATUSES:
        raise Wrong(f"no status goes with this: {last}")
    return STATUSES[word]


class File:
    """A file of rows, which is read block by block. If it is to be written, answers may be missing."""

    def __init__(self, path, folder, is_written=False):
        self.path = path
        self.folder = folder
        self.is_written = is_written
        self.at = 0
        self.texts = {}
        self.files = {}
        self.used = set()
        self.rows = []
        self.names = []

    def read(self):
        """Reads the whole file."""
        block = []
        lines = self.path.read_bytes().decode("latin-1").split("\n")
        for number, line in enumerate([*lines, ""], 1):
            if line.startswith("#"):
                continue
            if line.strip():
                block.append((number, line))
            elif block:
                self.read_block(block)
                block = []
        for name, (number, _) in [*self.texts.items(), *self.files.items()]:
            if name not in self.used:
                raise Wrong(f"{self.path}:{number}: {name} isn't used")

    def read_block(self, block):
        """Reads a block, and says where it is wrong."""
        self.at = block[0][0]
        try:
            self.read_lines(block[0][1], block[1:])
        except (Wrong, OSError) as why:
            raise Wrong(f"{self.path}:{self.at}: {why}") from None

    def read_lines(self, head, lines):
        kind, _, name = head.partition(" ")
        reads = {"text": self.read_text, "file": self.read_file, "folder": self.read_folder, "row": self.read_row}
        reads["table"] = self.read_table
        if kind not in reads or not name or (kind in ("text", "row", "table") and not re.fullmatch(r"\w+", name)):
            raise Wrong(f"no block begins with this: {head}")
        if kind in ("row", "table"):
            self.names.append((name, f"{self.path}:{self.at}"))
        reads[kind](name, lines)

    def each(self, lines):
        """Each line, of which the place is noted."""
        for self.at, line in lines:
            yield line

    def named(self, name):
        """The text of a name, or of a path."""
        self.used.add(name)
        if name in self.texts:
            return self.texts[name][1]
        if "/" not in name or not (TOP / name).is_file():
            raise Wrong(f"no text above and no file has the name {name}")
        return (TOP / name).read_bytes().decode("latin-1")

    def is_step(self, line):
        """Whether a line makes a text."""
        return line[:2] in ("< ", "  ", "+ ", "* ", "~ ")

    def stepped(self, text, line):
        """A text with what a line makes of it."""
        source = line[2:]
        if line[0] == "~":
            return replaced(text, source)
        makes = {"<": self.named, " ": line_of, "+": lines_of, "*": repeated}
        return text + makes[line[0]](source)

    def made(self, lines):
        """The text that lines make."""
        text = ""
        for line in self.each(lines):
            if not self.is_step(line):
                raise Wrong(f"this makes no text: {line}")
            text = self.stepped(text, line)
        return text

    def keep(self, kept, name, value):
        """Keeps a text or a file by its name, which is a new one."""
        if name in self.texts or name in self.files:
            raise Wrong(f"{name} is there already")
        kept[name] = (self.at, value)

    def read_text(self, name, lines):
        self.keep(self.texts, name, None)
        self.texts[name] = (self.at, self.made(lines))

    def read_file(self, name, lines):
        name = unescaped(name)
        self.keep(self.files, name, None)
        path = os.path.join(os.fsencode(self.folder), name.encode("latin-1"))
        Path(os.fsdecode(path)).write_bytes(self.made(lines).encode("latin-1"))

    def read_folder(self, name, lines):
        self.keep(self.files, name, None)
        if lines:
            raise Wrong("a folder has no text")
        (self.folder / name).mkdir()

    def words_of(self, line):
        """The words of a line."""
        words = []
        for source in line[2:].split():
            found = re.fullmatch(r"\{(\w+)\}", source)
            words.append(self.named(found[1]) if found else unescaped(source))
        self.used.update(word.removeprefix("@") for word in words)
        return words

    def read_row(self, name, lines):
        parts, above = [], ""
        for line in self.each(lines):
            if line[:2] in ("$", "$ "):
                parts.append(Row(name, self.words_of(line), self.path, self.at, self.at, text=above))
            elif parts:
                self.read_answer(parts[-1], line)
                parts[-1].ends = self.at
            elif self.is_step(line):
                above = self.stepped(above, line)
            else:
                raise Wrong(f"this stands above the words: {line}")
        if not parts or any(part.status is None and (part.lines or not self.is_written) for part in parts):
            raise Wrong("a part of this row has no words or no status; ci/rows.py --write writes an answer that is missing")
        self.rows += parts

    def read_answer(self, row, line):
        """Reads a line of a part."""
        word, _, rest = line.partition(" ")
        if self.is_step(line):
            row.text = self.stepped(row.text if row.has_text else "", line)
            row.has_text = True
            return
        row.lines.append(self.at)
        if word == ">":
            row.output.append(rest + "\n")
        elif word == ">|":
            row.output.append(rest)
        elif word == ">>":
            row.output.append(self.compared_with(row, rest))
        elif word == ">^":
            row.output += [rest, ANY_END]
        elif line == ">..":
            row.output.append(ANY_LINES)
        elif word == "!":
            row.errors += rest + "\n"
        elif word == "status" and rest in ("0", "1", "2", "3") and row.status is None:
            row.status = int(rest)
        else:
            raise Wrong(f"this is no line of a row: {line}")

    def compared_with(self, row, name):
        """The text that an output is compared with. If it is a file that is to be written, it may be missing."""
        if name in self.texts:
            return self.named(name)
        row.file = TOP / name
        return "" if self.is_written and not row.file.is_file() else self.named(name)

    def read_table(self, name, lines):
        asked, text, cut, count = [], "", -1, len(self.rows)
        status = None
        for line in self.each(lines):
            step, arrow, output = (part.rstrip(" ") for part in line.rpartition(" => "))
            if line[:2] == "$ " and not text:
                asked.append(self.words_of(line))
            elif line in ("status 0", "status 1", "status 2", "status 3"):
                status = int(line[7:])
            elif arrow and line.startswith("cut "):
                last = int(step[4:]) if step[4:].isdecimal() else 0
                if not cut < last <= len(text):
                    raise Wrong(f"no beginning of the text, of {len(text)} bytes, has {step[4:]} and none above")
                for cut in range(cut + 1, last + 1):
                    self.add_line(name, asked, text[:cut], output, status)
            elif self.is_step(line) and arrow and (line[0] != "~" or "=>" in step):
                self.add_line(name, asked, self.stepped(text, step), output, status)
            elif self.is_step(line) and len(self.rows) == count:
                text = self.stepped(text, line)
            else:
                raise Wrong(f"this is no line of a table: {line}")
        if len(self.rows) == count or cut not in (-1, len(text)):
            raise Wrong(f"this table has no lines, or the last beginning isn't the whole text, of {len(text)} bytes")

    def add_line(self, name, asked, text, output, status):
        """Adds the rows of a table's line, with this status if it has one."""
        if not asked:
            raise Wrong("this table has no words")
        lines = output.split(" / ")
        for words in asked:
            is_explained = "--explain" in words
            if "--json" in words:
                wanted = as_object(lines, is_explained)
            else:
                wanted = [ANY_LINES if line == ".." else line + "\n" for line in lines]
            known = status_of(lines[0 if is_explained else -1]) if status is None else status
            row = Row(name, words, self.path, self.at, self.at, [self.at], True, text, True, wanted)
            row.status = known
            self.rows.append(row)


def rows_below(folder):
    """The rows of all files of rows in a folder."""
    found = []
    for path in sorted(folder.glob("**/*.rows")):
        with tempfile.TemporaryDirectory() as made:
            file = File(path, Path(made))
            file.read()
        found += file.rows
    return found
