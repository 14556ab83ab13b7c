#!/usr/bin/env python3
"""Holds c/ringcheck.h to what it promises, as far as this machine can: the status is 1 where it doesn't keep that.

usage: ci/header.py PROGRAM [--seeds N]

compile  The header compiles without a warning, by gcc as C11, and by g++ as C++11 and C++17, with each set of its flags,
         alone and by -include.
code     Without flags the object code of the programs of examples/follow is that without header and marks.
calls    Each call is logged as the comments of audit/follow-calls.c say, and a call that can't be logged is an error of
         the compiler.
cases    Poison and forced failures are what audit/follow-cases.c says.
edits    Each wrong header of audit/headers.edits fails `calls` or `cases`.
runs     Six programs of examples/follow are built with a log, poison and faults, run with N seeds each (10), and PROGRAM
         follows each log. file_copy uses what a request brought before its cqe_seen, so it isn't poisoned.
try      c/ringcheck-try finds planted bugs: by a report, a departure, a run without an end, and a signal; and nothing in a
         correct program.

Where gcc, g++, liburing or a ring isn't there it says what it left out.
"""

import argparse
import os
import re
import subprocess
import sys
import tempfile
from itertools import product
from pathlib import Path

sys.dont_write_bytecode = True
TOP = Path(__file__).resolve().parent.parent
sys.path.insert(0, str(TOP / "ci"))
from edit_files import BUGS, changed_header, changed_program, header_edits

EXAMPLES, AUDIT, HEADER = TOP / "examples" / "follow", TOP / "audit", TOP / "c"
PROGRAMS = {"wal": 30, "group_commit": 20, "page_writer": 40, "page_cache": 40}
OTHERS = ("file_copy", "server")  # audit/follow doesn't run them
STRICT = ["-O1", "-Wall", "-Wextra", "-Wpedantic", "-Werror"]
LIBRARIES = ["-luring", "-lpthread"]
POISON = ["-g", "-fsanitize=address", "-DRINGCHECK_POISON"]
LOG, FAULTS = ["-DRINGCHECK_LOG"], ["-DRINGCHECK_FAULTS"]
FLAGS = ([], LOG, POISON, FAULTS, LOG + FAULTS, LOG + POISON, POISON + FAULTS, LOG + POISON + FAULTS)
LANGUAGES = (["gcc", "-x", "c", "-std=c11"], ["g++", "-x", "c++", "-std=c++11"], ["g++", "-x", "c++", "-std=c++17"])
ASAN = "detect_leaks=0:exitcode=99"
PROBE = """#include <liburing.h>
int main(void) { struct io_uring ring; return io_uring_queue_init(1, &ring, 0) != 0; }
"""
NOT_LOGGED = (
    "io_uring_submit_and_wait_timeout(ring, 0, 1, 0, 0)",
    "io_uring_submit_and_wait_min_timeout(ring, 0, 1, 0, 0, 0)",
    "io_uring_submit_and_wait_reg(ring, 0, 1, 0)",
    "io_uring_wait_cqes_min_timeout(ring, 0, 1, 0, 0, 0)",
    "io_uring_submit_and_get_events(ring)",
    "io_uring_enter(1, 1, 0, 0, 0)",
    "io_uring_enter2(1, 1, 0, 0, 0, 0)",
)


class Wrong(Exception):
    """Something isn't as it should be."""


def called(words, **more):
    return subprocess.run(words, capture_output=True, text=True, errors="replace", check=False, **more)


def compiled(words, what, **more):
    made = called(words, **more)
    if made.returncode:
        raise Wrong(f"{what} isn't compiled by {' '.join(map(str, words))}:\n{made.stderr[:2000]}")


def missing(folder, compilers):
    """What this machine lacks to compile with liburing, and what to run that; None if it lacks nothing."""
    source, probe = folder / "probe.c", folder / "probe"
    source.write_text(PROBE)
    for compiler in compilers:
        try:
            if called([compiler, source, "-o", probe, "-luring"]).returncode:
                return "no liburing to compile against", "no liburing to compile against"
        except OSError:
            return f"no {compiler}", f"no {compiler}"
    return None, "no io_uring in this kernel, or none for this user" if called([probe]).returncode else None


# ---- What compiles


def bare(source):
    """The same program without the header and its marks, line by line."""
    source = source.replace('#include "ringcheck.h"\n', "\n")
    return re.sub(r"RINGCHECK_\w+\([^;]*?\);", lambda it: ";" + "\n" * it.group().count("\n"), source)


def same_code(folder, compilers):
    """Whether the header adds no instruction without flags: included, and by -include."""
    included, to = ["-include", HEADER / "ringcheck.h"], folder / "object"
    programs = (*PROGRAMS, *OTHERS)
    for program, compiler, level in product(programs, compilers, ("-O0", "-O2")):
        source = (EXAMPLES / f"{program}.c").read_text()
        objects = set()
        for text, more in ((source, []), (bare(source), []), (bare(source), included)):
            words = [compiler, "-std=c11", level, f"-I{HEADER}", *more, "-c", "-x", "c", "-", "-o", to]
            compiled(words, f"{program}.c", input=text)
            objects.add(to.read_bytes())
        if len(objects) > 1:
            raise Wrong(f"{program}.c has other object code by {compiler} {level} with the header")
    return f"{len(programs)} programs by {' and '.join(compilers)}, -O0 and -O2: the same object files"


def compiles():
    """Alone; by -include, in a file that knows nothing of it; after other headers, in a C file that doesn't ask for
    _GNU_SOURCE; and with all calls."""
    knows_nothing = "#include <liburing.h>\nint f(struct io_uring *ring) { return io_uring_submit(ring); }\n"
    comes_last = f'#include <fcntl.h>\n{knows_nothing}#include "ringcheck.h"\n'
    for language in LANGUAGES:
        define, gnu = ("", []) if language[0] == "g++" else ("#define _GNU_SOURCE 1\n", ["-std=gnu11"])
        for flags in FLAGS:
            words = [*language, *STRICT, f"-I{HEADER}", *flags, "-fsyntax-only"]
            compiled([*words, "-"], "the header alone", input='#include "ringcheck.h"\nint one;\n')
            compiled([*words, "-include", "ringcheck.h", "-"], "the header by -include", input=define + knows_nothing)
            compiled([*words, *gnu, "-"], "the header after others", input=comes_last)
            compiled([*words, AUDIT / "follow-calls.c"], "follow-calls.c")
    return f"{len(LANGUAGES)} languages, {len(FLAGS)} sets of flags, without a warning"


# ---- What is logged


def language_words(compilers):
    for compiler in compilers:
        yield [compiler, "-std=c11", "-Wpedantic"]
        yield [compiler.replace("gcc", "g++").replace("clang", "clang++"), "-x", "c++", "-std=c++11"]


def logs_as_said(folder, words, flags, header=HEADER):
    """The lines that follow-calls.c writes, built so, are those of its comments. Answers how many they are."""
    wanted = re.findall(r"/\*: (.*?) \*/", (AUDIT / "follow-calls.c").read_text())
    binary, log = folder / "calls", folder / "calls.log"
    options = ["-Wall", "-Wextra", "-Werror", f"-I{header}", *flags]
    compiled([*words, *options, AUDIT / "follow-calls.c", "-o", binary, *LIBRARIES], "follow-calls.c")
    ran = called([binary], timeout=60, env=dict(os.environ, RINGCHECK_LOG_FILE=str(log), RINGCHECK_FAULTS=""))
    if ran.returncode:
        raise Wrong(f"follow-calls by {words[0]} {flags}: {ran.stderr}")
    if LOG[0] in flags:
        *lines, end = log.read_text().split("\n")
        if [line.split(" ", 2)[2] for line in lines[2:]] != wanted or end != "done":
            raise Wrong(f"{words[0]} {flags}: the log isn't that of the comments")
        if ran.stderr.count("not logged: a second ring") != 1:
            raise Wrong(f"{words[0]} {flags}: that a second ring isn't logged is to be printed once:\n{ran.stderr}")
    return len(wanted)


def logs_calls(folder, compilers):
    for words in language_words(compilers):
        lines = max(logs_as_said(folder, [*words, "-O1"], flags) for flags in FLAGS)
        for call in NOT_LOGGED:
            text = f'#include <liburing.h>\n#include "ringcheck.h"\nint f(struct io_uring *ring) {{ return {call}; }}\n'
            kind = [] if "-x" in words else ["-x", "c"]
            said = called([*words, f"-I{HEADER}", *LOG, "-c", "-o", "/dev/null", *kind, "-"], input=text)
            if not said.returncode or f"can't log {call.split('(')[0]}: call io_uring_" not in said.stderr:
                raise Wrong(f"{words[0]}: {call} isn't refused: {said.stderr}")
    return f"{lines} lines, {len(NOT_LOGGED)} calls refused"


# ---- Poison and forced failures


def case_run(binary, folder, name, settings, seed="1"):
    environment = dict(os.environ, ASAN_OPTIONS=ASAN, RINGCHECK_FAULTS="", RINGCHECK_SEED=seed)
    environment.update(word.split(":", 1) for word in settings.split())
    return called([binary, name], env=environment, timeout=60, cwd=folder)


def holds_cases(folder, header=HEADER):
    """Each case of follow-cases.c: its environment, and what it is to print on standard error."""
    cases = re.findall(r"/\*: (\w+) \[(.*?)\] (.*?) \*/", (AUDIT / "follow-cases.c").read_text())
    binary = folder / "cases"
    words = ["gcc", "-std=c11", "-Wall", "-Wextra", *POISON, *FAULTS, f"-I{header}", AUDIT / "follow-cases.c"]
    compiled([*words, "-o", binary, *LIBRARIES], "follow-cases.c")
    for name, settings, wanted in cases:
        ran = case_run(binary, folder, name, settings)
        holds = ran.returncode == 0 if wanted in ("none", "same") else re.search(wanted, ran.stderr)
        if wanted == "same":
            holds = holds and ran.stderr and case_run(binary, folder, name, settings).stderr == ran.stderr
            holds = holds and case_run(binary, folder, name, settings, "2").stderr != ran.stderr
        if not holds:
            raise Wrong(f"case {name} isn't as it should be: status {ran.returncode}\n{ran.stderr[:3000]}")
    return f"{len(cases)} cases of poison and forced failures"


def refuses_edits(folder):
    """Each wrong header fails what this holds it to."""
    for edit in header_edits():
        wrong = folder / edit.stem
        wrong.mkdir()
        for path, text in changed_header(edit).items():
            (wrong / path.name).write_text(text)
        try:
            logs_as_said(folder, ["gcc", "-std=c11"], LOG, wrong)
            holds_cases(folder, wrong)
        except (Wrong, subprocess.TimeoutExpired):
            continue
        raise Wrong(f"the header with {edit.stem} of audit/headers.edits passes")
    return f"{len(header_edits())} wrong headers are refused"


# ---- Runs


def file_of(folder, program, seed):
    """The file that a run works on; page_cache reads one that ends in the middle of a page."""
    path = folder / f"data{seed}"
    if program == "page_cache":
        path.write_bytes(bytes(range(256)) * 78 + b"end")
    return path


def arguments_of(folder, program, seed):
    """What a run is called with: by the seed the copied files are longer, and the clients of the server do other things."""
    if program == "server":
        return ["12", str(seed)]
    if program == "file_copy":
        path = folder / f"from{seed}"
        path.write_bytes(bytes(range(256)) * 13 * seed + b"end")
        return [path, folder / f"to{seed}"]
    return [file_of(folder, program, seed), str(PROGRAMS[program])]


def follows_runs(folder, command, seeds):
    """Runs with forced failures: no report, no hang, a copy is right, and each log is followed."""
    programs, calls = (*PROGRAMS, *OTHERS), 0
    for program in programs:
        binary, poison = folder / program, [] if program == "file_copy" else POISON
        words = ["gcc", "-std=c11", *STRICT, *LOG, *poison, *FAULTS, f"-I{HEADER}", f"-fmacro-prefix-map={EXAMPLES}/="]
        compiled([*words, EXAMPLES / f"{program}.c", "-o", binary, *LIBRARIES], f"{program}.c")
        logs = [folder / f"{program}.{seed}.log" for seed in range(1, seeds + 1)]
        for seed, log in enumerate(logs, 1):
            environment = dict(os.environ, ASAN_OPTIONS=ASAN, RINGCHECK_SEED=str(seed), RINGCHECK_LOG_FILE=str(log))
            given = arguments_of(folder, program, seed)
            ran = called([binary, *given], env=environment, timeout=60)
            if ran.returncode not in (0, 1):
                raise Wrong(f"{program}, seed {seed}: status {ran.returncode}\n{ran.stderr[:3000]}")
            if program == "file_copy" and not ran.returncode and given[0].read_bytes() != given[1].read_bytes():
                raise Wrong(f"{program}, seed {seed}: the copy isn't the file")
        said = called([command, "follow", EXAMPLES / f"{program}.rc", *logs])
        counts = re.findall(r": followed (\d+) calls$", said.stdout, re.M)
        if said.returncode or len(counts) != seeds:
            raise Wrong(f"{program}: {said.stdout[-2000:]}{said.stderr[-500:]}")
        calls += sum(map(int, counts))
    return f"{len(programs)} programs with {seeds} seeds each: no report, and all {calls} calls followed"


def tried(folder, program, text, flags, words):
    """The status of c/ringcheck-try, and what it says of a program."""
    source, binary = folder / f"{program}.c", folder / f"try_{program}"
    source.write_text(text)
    compiled(["gcc", "-std=c11", *flags, *FAULTS, f"-I{HEADER}", source, "-o", binary, *LIBRARIES], source.name)
    for seed in range(1, 21):
        file_of(folder, program, seed)
    command = [binary, folder / "data{seed}", str(PROGRAMS[program])]
    said = called([HEADER / "ringcheck-try", "--runs", "20", *words, *command])
    return said.returncode, said.stdout + said.stderr


def tries_seeds(folder, command):
    """Each bug with how it is built and tried, and what is said of it. A touch of a buffer that comes back just then has
    another name (unknown-crash)."""
    follows = ["--ringcheck", command, "--model", EXAMPLES / "page_writer.rc"]
    bugs = (
        ("page_freed_after_failed_submit", POISON, [], r"\S*page_writer\.c:\d+: AddressSanitizer: (use-after-poison|unknown-crash)\n"),
        ("page_stop_without_mutex", LOG, follows, r"\S+\.log:\d+: \S+ main calls get_sqe 1;"),
        ("frame_leaked", LOG, ["--timeout", "3"], r"no end within 3 seconds\n(    worker\d .*\n)+again: RINGCHECK_SEED="),
    )
    for bug, flags, words, wanted in bugs:
        source, text = next(iter(changed_program(BUGS / f"{bug}.edit").items()))
        status, said = tried(folder, source.stem, text, flags, words)
        if status != 1 or not re.match(r"seed \d+: " + wanted, said):
            raise Wrong(f"ringcheck-try says of {bug}, with status {status}:\n{said[:2000]}")
    cut = called([HEADER / "ringcheck-try", "sh", "-c", "echo ERROR: AddressSanitizer: cut; kill -ABRT $$"])
    if cut.returncode != 1 or not re.match(r"seed 1: AddressSanitizer: cut\n(    .*\n)*    ended by SIGABRT\n", cut.stdout):
        raise Wrong(f"ringcheck-try says of a report that is cut short, with status {cut.returncode}:\n{cut.stdout[:2000]}")
    correct = (EXAMPLES / "page_writer.c").read_text()
    status, said = tried(folder, "page_writer", correct, LOG + POISON, follows)
    if status or not said.startswith("20 runs, no report, no departure, all came to an end: "):
        raise Wrong(f"ringcheck-try says of page_writer, with status {status}:\n{said[:2000]}")
    aborts = correct.replace("    if (failed > 0)\n", "    if (failed > 0)\n        abort();\n    if (failed > 0)\n", 1)
    status, said = tried(folder, "page_writer", aborts, [], [])
    if status != 1 or not re.match(r"seed \d+: ended by SIGABRT\n", said):
        raise Wrong(f"ringcheck-try says of a program that aborts, with status {status}:\n{said[:2000]}")
    return f"{len(bugs)} bugs and an abort are found, and nothing in a correct program"


def main():
    parser = argparse.ArgumentParser(description=__doc__, formatter_class=argparse.RawDescriptionHelpFormatter)
    parser.add_argument("program", type=Path)
    parser.add_argument("--seeds", type=int, default=10)
    arguments = parser.parse_args()
    with tempfile.TemporaryDirectory() as name:
        folder = Path(name)
        no_library, no_ring = missing(folder, ("gcc", "g++"))
        parts = (
            ("compile", no_library, compiles),
            ("code", no_library, lambda: same_code(folder, ["gcc"])),
            ("calls", no_ring, lambda: logs_calls(folder, ["gcc"])),
            ("cases", no_ring, lambda: holds_cases(folder)),
            ("edits", no_ring, lambda: refuses_edits(folder)),
            ("runs", no_ring, lambda: follows_runs(folder, arguments.program.resolve(), arguments.seeds)),
            ("try", no_ring, lambda: tries_seeds(folder, arguments.program.resolve())),
        )
        for part, lacks, call in parts:
            try:
                print(f"header: {part}: {f'left out, {lacks}' if lacks else call()}", flush=True)
            except (Wrong, subprocess.TimeoutExpired) as why:
                print(f"header: {part}: {why}", file=sys.stderr)
                return 1
    return 0


if __name__ == "__main__":
    sys.exit(main())
