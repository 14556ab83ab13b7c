"""Says which functions of a crate an edit edits, by the names that the prover gives them."""

import difflib
import functools
import re
from dataclasses import dataclass, field
from pathlib import Path

from edit_files import CRATES, Stale, changed_crate, crate_of

# Comments, strings and characters, in which a word or a brace is none.
NO_CODE = re.compile(r"""//[^\n]*|b?"(?:\\.|[^"\\])*"|b?'(?:\\[^'\n]*|[^\\'\n])'""", re.DOTALL)
# Where an impl or a trait begins.
BLOCK = re.compile(r"^(?:pub(?:\([^)]*\))? +)?(impl|trait)\b([^{;]*)\{", re.MULTILINE)
FUNCTION = re.compile(r"\bfn +(\w+)")
TYPE = re.compile(r"^(?:pub(?:\([^)]*\))? +)?(?:struct|enum) +(\w+)", re.MULTILINE)
# What stands before the brace of a clause.
CLAUSE = re.compile(r"\b(?:requires|ensures|ghost)\*?(?:\s+\w+)?\s*:?\s*$")
# Where a body or a clause begins, or a function ends that has no body; the `;` of an array's type is none.
OPENS = re.compile(r"\{|;(?![^\[\]]*\])")


@dataclass(frozen=True)
class Function:
    """A function of a file: its module and its path there, which is a pattern where an impl may be named in several ways;
    all up to its body; and its lines, counted from 0."""

    module: str
    path: str
    head: str
    first: int
    last: int

    @property
    def name(self):
        """A pattern of the names that the prover has for it and for the closures in it."""
        return f"{self.module}::(?:{self.path}|fn::{self.path}::.*)"

    @property
    def only(self):
        """What a check of it alone is to be told: the function, or its module where its name isn't known."""
        module = self.module.partition("::")[2]
        return "::".join([module, self.path][not module :]) if re.fullmatch(r"[\w:]+", self.path) else module


@dataclass(frozen=True)
class Hunk:
    """Lines that stand in place of those from first to before last."""

    first: int
    last: int
    lines: tuple


@dataclass(eq=False)
class Edit:
    """An edit of a crate: what it changes, by file; the functions that it edits, and what a check of them alone is told;
    whether it changes what is outside functions; and what no edit may break in the check in which it is tried."""

    file: Path
    crate: str
    hunks: dict = field(default_factory=dict)
    functions: set = field(default_factory=set)
    only: set = field(default_factory=set)
    is_outside: bool = False
    apart: set = field(default_factory=set)

    @property
    def name(self):
        return self.file.stem


def blanked(text):
    """The text with blanks for what is no code."""
    return NO_CODE.sub(lambda found: re.sub(r"[^\n]", " ", found[0]), text)


def end_of(code, at):
    """Where the braces end that open at this place."""
    depth = 0
    for found in re.finditer(r"[{}]", code[at:]):
        depth += 1 if found[0] == "{" else -1
        if not depth:
            return at + found.end()
    raise Stale("it leaves braces open")


def body_of(code, at):
    """Where the body begins of the function whose name ends at this place; where it has none, where it ends."""
    while found := OPENS.search(code, at):
        if found[0] == ";" or not CLAUSE.search(code, at, found.start()):
            return found.start()
        at = end_of(code, found.start())
    raise Stale("it leaves a function without an end")


def angles_end(text):
    """Where the angle brackets end that the text begins with: 0 where it begins otherwise."""
    depth = 0
    for at, letter in enumerate(text):
        depth += {"<": 1, ">": -1}.get(letter, 0)
        if not depth:
            return at + 1 if letter == ">" else 0
    raise Stale("it leaves angle brackets open")


def named_in(text):
    """The names in a text, without lifetimes."""
    return re.findall(r"(?<!')\b[A-Za-z_]\w*", text)


def module_of(crate, path):
    """The module that a file of src/ is."""
    parts = [*path.with_suffix("").parts[1:]]
    if parts[-1] in ("lib", "main", "mod"):
        parts.pop()
    return "::".join([crate, *parts])


@functools.lru_cache(maxsize=None)
def types_of(crate):
    """The modules in which the types of a crate are declared, by their names."""
    found = {}
    for file in sorted((CRATES / crate / "src").rglob("*.rt")):
        module = module_of(crate, file.relative_to(CRATES / crate))
        for it in TYPE.finditer(blanked(file.read_text())):
            found.setdefault(it[1], set()).add(module)
    return found


def home_of(crate, module, name):
    """The module of a type that this module names."""
    homes = types_of(crate).get(name, set())
    if module in homes:
        return module
    if len(homes) != 1:
        raise Stale(f"{name} is declared in {len(homes)} modules, so which it edits isn't known")
    return next(iter(homes))


def owner_of(crate, module, kind, head):
    """The module of an impl or a trait, and what stands for it there: a pattern where it names arguments. What a type has
    of its own is in the module of the type, wherever the impl stands."""
    head = head.strip()
    if kind == "trait":
        return module, re.match(r"\w+", head)[0]
    generics = head[: angles_end(head)]
    trait, _, of = head[len(generics) :].rpartition(" for ")
    name, _, arguments = of.strip().partition("<")
    name, is_general = name.split("::")[-1].strip(), not set(named_in(arguments)) - set(named_in(generics))
    if not trait:
        return home_of(crate, module, name), name if is_general else rf"{name}\+[\w+]*"
    trait, _, arguments = trait.strip().partition("<")
    words = named_in(arguments)[:1]
    return module, name + trait.split("::")[-1] + "".join(f"(?:{it})?" for it in words)


def functions_of(crate, path, text):
    """The functions of a file of a crate, in their order."""
    code, found = blanked(text), []
    module = module_of(crate, Path(path))
    blocks = [(it.end() - 1, end_of(code, it.end() - 1), it) for it in BLOCK.finditer(code)]
    for it in FUNCTION.finditer(code):
        body = body_of(code, it.end())
        end = end_of(code, body) if code[body] == "{" else body
        blocks_around = [block for first, last, block in blocks if first < it.start() < last]
        owner = owner_of(crate, module, *blocks_around[-1].groups()) if blocks_around else (module,)
        lines = code.count("\n", 0, it.start()), code.count("\n", 0, end)
        found.append(Function(owner[0], "::".join([*owner[1:], it[1]]), text[it.start() : body].strip(), *lines))
    return found


def hunks_of(old, new):
    """What stands in place of which lines of the old text, and the lines of the new one where it stands."""
    found = difflib.SequenceMatcher(None, old, new, autojunk=False).get_opcodes()
    return [(Hunk(a, b, tuple(new[c:d])), range(c, d)) for kind, a, b, c, d in found if kind != "equal"]


def touched(functions, lines):
    return {it for it in functions if any(it.first <= line <= it.last for line in lines)}


def is_around(functions, lines, text):
    """Whether all of these lines of the text that say something are in functions."""
    return all(touched(functions, [line]) for line in lines if text[line].strip())


def stop_on_contract(was, now):
    """A function has to keep its name, its parameters and its clauses: what a changed contract refuses shows nothing."""
    for it in was:
        if it.head not in [other.head for other in now if other.name == it.name]:
            raise Stale(f"it changes what callers see of {it.module}::{it.path}")


def add_file(edit, path, old, new):
    """Notes what the edit changes in a file."""
    if not path.startswith("src/"):
        raise Stale("it changes a file that is not in src/: what that refuses says nothing of a contract")
    was, now = functions_of(edit.crate, path, old), functions_of(edit.crate, path, new)
    stop_on_contract(was, now)
    old, new = old.split("\n"), new.split("\n")
    for hunk, lines in hunks_of(old, new):
        before = range(hunk.first, hunk.last)
        edit.hunks.setdefault(path, []).append(hunk)
        functions = touched(now, lines) or touched(was, before)
        edit.functions |= {it.name for it in functions}
        edit.only |= {it.only for it in functions}
        edit.is_outside = edit.is_outside or not (is_around(was, before, old) and is_around(now, lines, new))


def read_edit(file):
    """What an edit edits."""
    edit = Edit(file, crate_of(file))
    folder = CRATES / edit.crate
    for path, text in changed_crate(file).items():
        add_file(edit, str(path.relative_to(folder)), path.read_text(), text)
    if not edit.hunks:
        raise Stale("it changes nothing")
    return edit


def texts_of(crate, edits):
    """What the files of the crate are with all of these edits, no two of which change the same lines."""
    texts = {}
    for path in {path for edit in edits for path in edit.hunks}:
        lines = (CRATES / crate / path).read_text().split("\n")
        hunks = [hunk for edit in edits for hunk in edit.hunks.get(path, [])]
        for hunk in sorted(hunks, key=lambda it: it.first, reverse=True):
            lines[hunk.first : hunk.last] = hunk.lines
        texts[path] = "\n".join(lines)
    return texts
