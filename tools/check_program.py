#!/usr/bin/env python3
"""Checks the built program: its status, what it says, and what it leaves in its folder.

    check_program.py                     builds the program by the launcher ./snxcomb, and checks it
    check_program.py PROGRAM             checks a program that is built
    check_program.py PROGRAM GROUP ..    checks it on these groups of tools/documents.py and tools/combinations.py alone

Each row of the table below is one run in a folder of its own, below a temporary folder. It says what lies there before, what is
run, and what must come; all else in the folder must be as before. The documents of tools/documents.py and the combinations of
tools/combinations.py are run likewise, and tools/combine.py says what must come. One line is printed for each
row and for each group of the others, and one for each of these that has another answer; at the end 'N passed, M failed'. The
status is 0 where none failed.
"""

import os
import resource
import shutil
import subprocess
import sys
import tempfile
from concurrent.futures import ThreadPoolExecutor
from dataclasses import dataclass, field
from pathlib import Path

import combinations
import documents

TOP = Path(__file__).resolve().parent.parent
SECONDS = 60
# how many documents or combinations are run at once
TOGETHER = 4
NOBODY = 65534

ONE_STATION = (TOP / "examples/one-station.snx").read_bytes()
REPORT = b"""SNXCOMB BOUNDS 1
CERT g=40 B=1 M=0 N=1
     1 STAX   ABCD  A    1 24:001:00000 m    1.5000000000000000 1.5000000000000000 0E-29
END
"""
OUT = b"""%=SNX 2.02 XYZ 24:002:00000 XYZ 00:000:00000 00:000:00000 C 00001 2 S
+FILE/REFERENCE
 SOFTWARE           snxcomb
-FILE/REFERENCE
+FILE/COMMENT
 INPUT in
-FILE/COMMENT
+SITE/ID
-SITE/ID
+SOLUTION/EPOCHS
-SOLUTION/EPOCHS
+SOLUTION/STATISTICS
 NUMBER OF UNKNOWNS                                  1
-SOLUTION/STATISTICS
+SOLUTION/ESTIMATE
     1 STAX   ABCD  A    1 24:001:00000 m    2  .150000000000000E+01 .500000E+00
-SOLUTION/ESTIMATE
+SOLUTION/APRIORI
     1 STAX   ABCD  A    1 24:001:00000 m    2  .100000000000000E+01 .000000E+00
-SOLUTION/APRIORI
+SOLUTION/NORMAL_EQUATION_VECTOR
     1 STAX   ABCD  A    1 24:001:00000 m    2  .200000000000000E+01
-SOLUTION/NORMAL_EQUATION_VECTOR
+SOLUTION/NORMAL_EQUATION_MATRIX L
     1     1   .40000000000000E+01
-SOLUTION/NORMAL_EQUATION_MATRIX L
%ENDSNX
"""
NO_PIVOT = b"".join(it for it in ONE_STATION.splitlines(True) if not it.startswith(b"     1     1 "))
PIVOT_LINE = b"snxcomb: pivot stack STAX/ABCD/A/1/24:001:00000\n"
WORDS_LINE = b"snxcomb: words\n"
DESK_LINE = b"snxcomb: desk\n"
MEMORY_LINE = b"snxcomb: memory\n"
LIMIT = 64 * 2**20


class Folder:
    """A folder in the place of a file."""


@dataclass(frozen=True)
class Zeros:
    """A file of so many zero bytes, which takes no room on the disk."""

    size: int


@dataclass(frozen=True)
class Locked:
    """A file of these bytes that its mode lets nobody read or write."""

    content: bytes


@dataclass(frozen=True)
class Beginning:
    """A file that holds a beginning of these bytes, of this length."""

    content: bytes
    length: int


@dataclass
class Row:
    what: str
    words: list
    status: int
    error: bytes = b""
    output: bytes = b""
    before: dict = field(default_factory=lambda: {"in": ONE_STATION})
    made: dict = field(default_factory=dict)
    # the stream whose reader is gone, or that is a full device: "stdout" or "stderr"
    closed: str = ""
    full: str = ""
    # the system's limits on the run
    limits: dict = field(default_factory=dict)
    # whether the run must not have root's leave to open every file
    as_user: bool = False


SOLVE = ["solve", "in", "report"]
WRITTEN = {"report": REPORT}
COMBINE = ["combine", "control", "out", "report"]
CONTROL = b'[output]\nagency = "XYZ"\ncreated = "24:002:00000"\n[[file]]\nname = "in"\n'
PARTS = {"control": CONTROL, "in": ONE_STATION}

ROWS = [
    # ---- reports
    Row("solve writes its report", SOLVE, 0, made=WRITTEN),
    Row("a longer file is replaced", SOLVE, 0, before={"in": ONE_STATION, "report": b"x" * 5000}, made=WRITTEN),
    Row("a report to standard output", ["solve", "in", "/dev/stdout"], 0, output=REPORT),
    # ---- words
    Row("no words", [], 2, WORDS_LINE),
    Row("one word", ["solve"], 2, WORDS_LINE),
    Row("two words", ["solve", "in"], 2, WORDS_LINE),
    Row("four words", [*SOLVE, "more"], 2, WORDS_LINE),
    Row("another command", ["combined", "in", "report"], 2, WORDS_LINE),
    Row("one name twice", ["solve", "in", "in"], 2, WORDS_LINE),
    Row("a command that isn't UTF-8", [b"\xff", "in", "report"], 2),
    Row("a name that isn't UTF-8", ["solve", "in", b"report\xff"], 2),
    # ---- files that are refused
    Row("IN isn't there", ["solve", "none", "report"], 3, b"snxcomb: no file none\n"),
    Row("IN's folder isn't there", ["solve", "none/in", "report"], 3, b"snxcomb: no file none/in\n"),
    Row("IN is empty", SOLVE, 3, b"snxcomb: in:1 NoHeader\n", before={"in": b""}),
    Row("IN has a bad line", SOLVE, 3, b"snxcomb: in:12 AfterFooter\n", before={"in": ONE_STATION + b"x\n"}),
    Row("IN lacks a block", SOLVE, 3, b"snxcomb: block file:in SOLUTION/APRIORI\n", before={"in": b"%=SNX 2.02\n%ENDSNX\n"}),
    Row("IN has 64 MiB", SOLVE, 3, b"snxcomb: in:1 NoHeader\n", before={"in": Zeros(LIMIT)}),
    Row("IN has a byte more", SOLVE, 3, b"snxcomb: too long in\n", before={"in": Zeros(LIMIT + 1)}),
    Row("no pivot", SOLVE, 6, PIVOT_LINE, before={"in": NO_PIVOT}),
    Row("no pivot, and a report before", SOLVE, 6, PIVOT_LINE, before={"in": NO_PIVOT, "report": b"before"}),
    Row("IN's name is empty", ["solve", "", "report"], 3, b"snxcomb: no file \n"),
    Row("IN's name has other letters", ["solve", "dänisch".encode(), "report"], 3, "snxcomb: no file dänisch\n".encode()),
    # ---- combinations: OUT first, then REPORT
    Row("OUT may not be written", COMBINE, 5, DESK_LINE, before={**PARTS, "out": Locked(b"before"), "report": b"before"}, as_user=True),
    Row("OUT is a folder", COMBINE, 5, DESK_LINE, before={**PARTS, "out": Folder}),
    Row("the combination's REPORT is a folder", COMBINE, 5, DESK_LINE, before={**PARTS, "report": Folder}, made={"out": OUT}),
    Row("a longer OUT is replaced", COMBINE, 0, before={**PARTS, "out": b"x" * 5000}, made={"out": OUT, "report": REPORT}),
    Row("OUT may not grow past 100 bytes", COMBINE, 5, DESK_LINE, before=PARTS, made={"out": Beginning(OUT, 100)}, limits={resource.RLIMIT_FSIZE: 100}),
    Row("OUT is a full device", ["combine", "control", "/dev/full", "report"], 5, DESK_LINE, before=PARTS),
    Row("OUT to standard output", ["combine", "control", "/dev/stdout", "report"], 0, output=OUT, before=PARTS, made={"report": REPORT}),
    Row("the control file is a folder", COMBINE, 5, DESK_LINE, before={"control": Folder}),
    Row("a listed file is a folder", COMBINE, 5, DESK_LINE, before={"control": CONTROL, "in": Folder}),
    Row("a listed file is too long", COMBINE, 3, b"snxcomb: too long in\n", before={"control": CONTROL, "in": Zeros(LIMIT + 1)}),
    # ---- want of memory
    Row("no memory for IN", SOLVE, 4, MEMORY_LINE, before={"in": Zeros(LIMIT)}, limits={resource.RLIMIT_AS: LIMIT // 2}),
    Row("no memory, and nobody reads standard error", SOLVE, 5, before={"in": Zeros(LIMIT)}, limits={resource.RLIMIT_AS: LIMIT // 2}, closed="stderr"),
    # ---- a system that fails: reading
    Row("IN is a folder", SOLVE, 5, DESK_LINE, before={"in": Folder}),
    Row("IN lies below a file", ["solve", "in/in", "report"], 5, DESK_LINE),
    Row("IN has too long a name", ["solve", "i" * 300, "report"], 5, DESK_LINE),
    Row("IN may not be read", SOLVE, 5, DESK_LINE, before={"in": Locked(ONE_STATION)}, as_user=True),
    # ---- a system that fails: writing
    Row("REPORT's name is empty", ["solve", "in", ""], 5, DESK_LINE),
    Row("REPORT is a folder", SOLVE, 5, DESK_LINE, before={"in": ONE_STATION, "report": Folder}),
    Row("REPORT lies below a file", ["solve", "in", "in/report"], 5, DESK_LINE),
    Row("REPORT's folder isn't there", ["solve", "in", "none/report"], 5, DESK_LINE),
    Row("REPORT may not be written", SOLVE, 5, DESK_LINE, before={"in": ONE_STATION, "report": Locked(b"before")}, as_user=True),
    Row("REPORT is a full device", ["solve", "in", "/dev/full"], 5, DESK_LINE),
    Row("REPORT may not grow past 10 bytes", SOLVE, 5, DESK_LINE, made={"report": Beginning(REPORT, 10)}, limits={resource.RLIMIT_FSIZE: 10}),
    Row("REPORT is a pipe that nobody reads", ["solve", "in", "/dev/stdout"], 5, DESK_LINE, closed="stdout"),
    # ---- a system that fails: saying
    Row("words, and nobody reads standard error", [], 5, closed="stderr"),
    Row("no file, and nobody reads standard error", ["solve", "none", "report"], 5, closed="stderr"),
    Row("words, and standard error is full", [], 5, full="stderr"),
    Row("a report, and nobody reads standard error", SOLVE, 0, made=WRITTEN, closed="stderr"),
]


def put(path, content):
    if content is Folder:
        path.mkdir()
    elif isinstance(content, Zeros):
        path.touch()
        os.truncate(path, content.size)
    elif isinstance(content, Locked):
        path.write_bytes(content.content)
        path.chmod(0)
    else:
        path.write_bytes(content)


def has(path, content):
    """Whether there stands at the path what should."""
    if content is Folder:
        return path.is_dir() and not list(path.iterdir())
    if not path.is_file():
        return False
    if isinstance(content, Zeros):
        return path.stat().st_size == content.size
    if isinstance(content, Locked):
        path.chmod(0o600)
        return path.read_bytes() == content.content
    if isinstance(content, Beginning):
        return path.read_bytes() == content.content[: content.length]
    return path.read_bytes() == content


def run(program, row, folder):
    """Runs a row's words in the folder, and returns the status and what came on both streams."""
    streams = {"stdout": subprocess.PIPE, "stderr": subprocess.PIPE}
    opened = []
    if row.closed:
        reader, streams[row.closed] = os.pipe()
        os.close(reader)
        opened.append(streams[row.closed])
    if row.full:
        streams[row.full] = os.open("/dev/full", os.O_WRONLY)
        opened.append(streams[row.full])
    how = {}
    if row.as_user and os.geteuid() == 0:
        how = {"user": NOBODY, "group": NOBODY, "extra_groups": []}
        for path in folder.iterdir():
            os.chown(path, NOBODY, NOBODY)
    if row.limits:
        # the signal that ends who writes past a file's limit stays ignored, so that the write itself is refused
        how["restore_signals"] = False
        how["preexec_fn"] = lambda: [resource.setrlimit(limit, (most, most)) for limit, most in row.limits.items()]
    try:
        ended = subprocess.run([program, *row.words], cwd=folder, stdin=subprocess.DEVNULL, timeout=SECONDS, **streams, **how)
    finally:
        for it in opened:
            os.close(it)
    return ended.returncode, ended.stdout or b"", ended.stderr or b""


def wrong(program, row, folder):
    """What came otherwise than the row says, in words."""
    for name, content in row.before.items():
        put(folder / name, content)
    status, output, error = run(program, row, folder)
    found = []
    if status != row.status:
        found.append(f"status {status}, not {row.status}")
    if output != row.output:
        found.append(f"standard output {output[:200]!r}, not {row.output[:200]!r}")
    if error != row.error:
        found.append(f"standard error {error[:200]!r}, not {row.error[:200]!r}")
    after = {**row.before, **row.made}
    for name in sorted({it.name for it in folder.iterdir()} - set(after)):
        found.append(f"{name} was made")
    found += [f"{name} isn't what it should be" for name, content in after.items() if not has(folder / name, content)]
    return found


def can_change_user(program):
    """Whether the program can be run without root's leave to open every file."""
    if os.geteuid():
        return True
    try:
        return subprocess.run(["test", "-x", program], user=NOBODY, group=NOBODY, extra_groups=[]).returncode == 0
    except (OSError, subprocess.SubprocessError):
        return False


def built(room):
    """The program, built by the launcher, which is to write a report too."""
    report = room / "launched"
    status = subprocess.run([TOP / "snxcomb", "solve", TOP / "examples/one-station.snx", report]).returncode
    if status or not has(report, REPORT):
        print(f"FAILED  the launcher: status {status}, not 0, or not the report")
        print("0 passed, 1 failed")
        sys.exit(1)
    print("passed  the launcher writes a report")
    return TOP / "crates/snxcomb/out/snxcomb"


def tried(program, row, folder):
    """What came otherwise than the row says, in a folder that is made for it and goes afterwards."""
    folder.mkdir()
    folder.chmod(0o777)
    try:
        return wrong(program, row, folder)
    except subprocess.TimeoutExpired:
        return [f"it had not ended after {SECONDS} seconds"]
    finally:
        shutil.rmtree(folder)


def checked_rows(program, room):
    """How many rows passed and how many failed."""
    passed, failed = 0, 0
    changes = can_change_user(program)
    for row in ROWS:
        if row.as_user and not changes:
            print(f"note    {row.what}: not run, since root may open every file")
            continue
        found = tried(program, row, room / "run")
        print(f"FAILED  {row.what}: {'; '.join(found)}" if found else f"passed  {row.what}", flush=True)
        failed += bool(found)
        passed += not found
    return passed, failed


def row_of(case):
    """The run of a document, with the answer of tools/combine.py."""
    status, text = case.answer
    before = {"in": case.text}
    if status:
        return Row(case.what, SOLVE, status, text.encode(), before=before)
    return Row(case.what, SOLVE, 0, before=before, made={"report": text.encode()})


def row_of_combination(case):
    """The run of a combination, with the answer of tools/combine.py."""
    status, line, made = case.answer
    made = {name: text.encode("latin-1") for name, text in made.items()}
    return Row(case.what, case.words, status, line.encode(), before=case.files, made=made)


# what makes the cases of a group, and the run of a case
GROUPS = {name: (lambda name=name: documents.cases(name), row_of) for name in documents.GROUPS}
GROUPS |= {name: (lambda make=make: list(make()), row_of_combination) for name, make in combinations.GROUPS.items()}


def checked_group(program, room, group):
    """How many cases of a group passed and how many failed."""
    make, row_for = GROUPS[group]
    cases = make()
    failed = 0
    with ThreadPoolExecutor(TOGETHER) as pool:
        answers = pool.map(lambda it: tried(program, row_for(it[1]), room / str(it[0])), enumerate(cases))
    for case, found in zip(cases, answers):
        if not case.is_as_wanted():
            found.append(f"tools/ doesn't answer {case.wants!r}")
        failed += bool(found)
        if found:
            print(f"FAILED  {group}: {case.what}: {'; '.join(found)}", flush=True)
    if not failed:
        print(f"passed  {group}: {len(cases)} cases", flush=True)
    return len(cases) - failed, failed


def main():
    with tempfile.TemporaryDirectory(prefix="check-program-") as name:
        room = Path(name)
        room.chmod(0o755)
        source, *groups = sys.argv[1:] or [built(room)]
        counts = [(len(sys.argv) == 1, 0)]
        program = room / "program"
        shutil.copy(source, program)
        program.chmod(0o755)
        if not groups:
            counts.append(checked_rows(program, room))
        counts += [checked_group(program, room, group) for group in groups or GROUPS]
        passed, failed = (sum(it) for it in zip(*counts))
        print(f"{passed} passed, {failed} failed")
        return 1 if failed else 0


if __name__ == "__main__":
    sys.exit(main())
