#!/usr/bin/env python3
"""Times the proved solve beside the same cubic loops in C++, in one run, and prints the ratios.

    bench/times.py kernels [ROWS ..]    factor, columns and defects; the default is 300 and 900 rows
    bench/times.py inverse [ROWS ..]    the enclosed inverse, as of covariances; the default is 300 and 900 rows
    bench/times.py solve [ROWS ..]      the whole program on files that bench/make_file.py writes; the default is 30, 300 and 900
    bench/times.py read [ROWS ..]       reading such files, with one value on a matrix line and with three; the default is 900
    bench/times.py write [ROWS ..]      writing the combined file of a stack that is made; the default is 900 rows
    bench/times.py combine [FILES ROWS SHARED]   a combination of networks; the default is 8 files of 300 unknowns, 210 in all
    bench/times.py values [FILES ROWS]  the way to common a priori values, and a datum; the default is 8 files of 900 unknowns
    bench/times.py memory [FILES ROWS SHARED]    the memory of one; the default is 64 files of 900 unknowns, 30 in all

It proves and builds crates/step_times and the program first, and compiles the yardsticks with g++ -O2. Each command runs five
times, in turn with the yardstick, and the least time of each step counts; a combination runs three times, and the median counts.
Times are of the wall clock, in milliseconds; memory is the greatest resident set of the process, and at least this script's own,
from which it starts. The columns are the pilot without its factor. The defects are the certificate whole, with its working
copies, its errors and its radii. Reading is beside bench/reading.cpp, which tests nothing of what it reads, and writing beside
bench/writing.cpp, which writes the matrix alone; to memory as the call does. The memory of writing is what a run takes that
writes less what one takes that makes the stack alone, each by GNU time, which is small itself. Of a combination the rest is what
remains of the whole after reading and recovery: the sum, its solution and the writing. The memory is measured of one run, which may
end with a refusal. For common values and a datum, runs that end with a refusal after these steps are compared with runs that do
not have them, beside the recovery of a file.
"""

import os
import pathlib
import re
import statistics
import subprocess
import sys
import tempfile
import time

TOP = pathlib.Path(__file__).resolve().parent.parent
RUNS = 5
COMBINATION_RUNS = 3
KERNELS = ("factor", "columns", "defects")


def build(crate, words):
    folder = TOP / "crates" / crate
    subprocess.run(["rt", "run", "--", *words], cwd=folder, check=True, stdout=subprocess.DEVNULL, stderr=subprocess.DEVNULL)
    return folder / "out" / crate


def built_solver():
    return build("snxcomb", ["solve", "data/two-stations.snx", "/dev/null"])


def tried(command, folder=None):
    """What the command writes, to its output and its errors in one; its status, its milliseconds and its megabytes."""
    start = time.monotonic()
    process = subprocess.Popen(command, cwd=folder, stdout=subprocess.PIPE, stderr=subprocess.STDOUT)
    text = process.stdout.read().decode()
    _, status, usage = os.wait4(process.pid, 0)
    return text, os.waitstatus_to_exitcode(status), 1000 * (time.monotonic() - start), usage.ru_maxrss / 1024


def run(command, folder=None):
    """What the command writes, its milliseconds and its megabytes. It must succeed."""
    text, status, whole, peak = tried(command, folder)
    assert status == 0, (command, status, text)
    return text, whole, peak


def numbers(text):
    return {name: float(value) for name, value in re.findall(r"(\w+) (\d+(?:\.\d+)?)", text)}


def steps(program, words):
    text, _, peak = run([program, *words])
    t = numbers(text)
    t["columns"] = t["pilot"] - t["factor"]
    t["defects"] = t["rows"] + t["check"]
    t["memory"] = peak
    return t


def yardstick_steps(yardstick, rows):
    t = numbers(run([yardstick, str(rows)])[0])
    return {step: 1000 * t[step] for step in KERNELS}


def least(runs):
    return {step: min(t[step] for t in runs) for step in runs[0]}


def kernels(program, yardstick, sizes):
    for rows in sizes:
        mine, theirs = [], []
        for _ in range(RUNS):
            mine.append(steps(program, ["table", str(rows)]))
            theirs.append(yardstick_steps(yardstick, rows))
        mine, theirs = least(mine), least(theirs)
        print(f"{rows} rows: the proved loops, C++, and the ratio")
        for step in KERNELS:
            print(f"  {step:8} {mine[step]:8.0f} ms {theirs[step]:8.0f} ms {mine[step] / theirs[step]:6.2f}")
        print(f"  memory {mine['memory']:.0f} MB")


def inverse(program, yardstick, sizes):
    found = {}
    for rows in sizes:
        mine, theirs, memory = [], [], 0
        for _ in range(RUNS if rows < 600 else 2):
            text, _, peak = run([program, "inverse", str(rows)])
            mine.append(numbers(text)["inverse"])
            theirs.append(sum(yardstick_steps(yardstick, rows).values()))
            memory = max(memory, peak)
        found[rows] = min(mine)
        print(f"{rows} rows: the inverse {min(mine):.0f} ms, the yardstick's three loops {min(theirs):.0f} ms, ratio {min(mine) / min(theirs):.2f}; memory {memory:.0f} MB")
    for less, more in zip(sizes, sizes[1:]):
        print(f"{more} rows beside {less}: {found[more] / found[less]:.1f} times")


def solve(program, solver, yardstick, sizes, folder):
    for rows in sizes:
        file = folder / f"{rows}.snx"
        with open(file, "w") as out:
            subprocess.run([TOP / "bench" / "make_file.py", str(rows)], stdout=out, check=True)
        mine, theirs, wholes, memory = [], [], [], 0
        for _ in range(RUNS):
            mine.append(steps(program, ["file", str(file)]))
            theirs.append(yardstick_steps(yardstick, rows))
            _, whole, peak = run([solver, "solve", str(file), str(folder / "report")])
            wholes.append(whole)
            memory = max(memory, peak)
        mine, theirs = least(mine), least(theirs)
        mine["print"] = mine["solve"] - sum(mine[step] for step in ("tables", "pilot", "rows", "vector", "check"))
        loops = sum(theirs.values())
        print(f"{rows} rows, in milliseconds:")
        print("  " + ", ".join(f"{step} {mine[step]:.0f}" for step in ("read", "recover", "tables", "factor", "columns", "rows", "vector", "check", "print")))
        ratio = f"{min(wholes) / loops:.2f}" if loops >= 10 else "too short to tell"
        print(f"  the whole program {min(wholes):.0f}; the yardstick's loops {loops:.0f}; ratio {ratio}; memory {memory:.0f} MB")


def read(program, yardstick, sizes, folder):
    for rows in sizes:
        for values in ("1", "3"):
            file = folder / f"{rows}-{values}.snx"
            with open(file, "w") as out:
                subprocess.run([TOP / "bench" / "make_file.py", str(rows), values], stdout=out, check=True)
            mine, theirs = [], []
            for _ in range(RUNS):
                mine.append(steps(program, ["file", str(file)])["read"])
                theirs.append(1000 * numbers(run([yardstick, str(file)])[0])["read"])
            ratio = min(mine) / min(theirs)
            size = file.stat().st_size / 1e6
            print(f"{rows} rows, {values} a line, {size:.1f} MB: {min(mine):.0f} ms, C++ {min(theirs):.0f} ms, ratio {ratio:.2f}")


def peak(command):
    """The greatest resident set of the command, in bytes."""
    ended = subprocess.run(["/usr/bin/time", "-f", "%M", *command], stdout=subprocess.DEVNULL, stderr=subprocess.PIPE, check=True)
    return 1024 * int(ended.stderr.split()[-1])


def write(program, yardstick, sizes):
    for rows in sizes:
        mine, theirs, size = [], [], 0
        for _ in range(RUNS):
            t = numbers(run([program, "write", str(rows)])[0])
            mine.append(t["micros"] / 1000)
            size = t["bytes"]
            theirs.append(1000 * numbers(run([yardstick, str(rows)])[0])["write"])
        whole, stack = (min(peak([program, what, str(rows)]) for _ in range(RUNS)) for what in ("write", "stack"))
        rate = size / 1000 / min(mine)
        print(f"{rows} rows, {size / 1e6:.2f} MB: {min(mine):.1f} ms, {rate:.0f} MB/s; C++ {min(theirs):.1f} ms, ratio {min(mine) / min(theirs):.2f}")
        print(f"  memory: {whole / 1e6:.1f} MB, of which the stack {stack / 1e6:.1f}; the rest is {(whole - stack) / size:.2f} times the text")


def networks(folder, files, rows, shared):
    """The files of a combination, made in the folder."""
    words = [str(folder), str(files), str(rows), str(shared)]
    subprocess.run([TOP / "bench" / "make_file.py", "networks", *words], check=True)
    return sorted(str(file) for file in folder.glob("network-*.snx"))


def summed(text):
    """The sum of each step over all lines."""
    lines = [numbers(line) for line in text.splitlines()]
    return {step: sum(t[step] for t in lines) for step in lines[0]}


def combination_runs(program, solver, loops, reader, names, rows, folder):
    """Each step of each run, of the program and of the yardsticks; the memory."""
    for _ in range(COMBINATION_RUNS):
        t = summed(run([program, "combine", *names])[0])
        _, t["whole"], t["memory"] = run([solver, "combine", "control.toml", "out.snx", "report"], folder)
        t["rest"] = t["whole"] - t["read"] - t["recover"]
        t["loops"] = sum(yardstick_steps(loops, rows).values())
        t["reading"] = sum(1000 * numbers(run([reader, name])[0])["read"] for name in names)
        yield t


def combine(program, solver, loops, reader, sizes, folder):
    files, rows, shared = sizes
    together = shared + files * (rows - shared)
    assert together <= 1000, f"{together} names, and a combination has at most 1,000"
    names = networks(folder, files, rows, shared)
    runs = list(combination_runs(program, solver, loops, reader, names, together, folder))
    t = {step: statistics.median(one[step] for one in runs) for step in runs[0]}
    yardstick = t["loops"] + t["reading"]
    print(f"{files} files of {rows} unknowns, {shared} of them in all, {together} names; in milliseconds, medians of {COMBINATION_RUNS} runs:")
    print("  " + ", ".join(f"{step} {t[step]:.0f}" for step in ("read", "recover", "rest", "whole")) + f"; memory {t['memory']:.0f} MB")
    print(f"  C++: reading {t['reading']:.0f}, loops {t['loops']:.0f}")
    if t["reading"] < 10 or t["loops"] < 10:
        print("  ratios: too short to tell")
    else:
        print(f"  ratios: reading {t['read'] / t['reading']:.2f}, rest {t['rest'] / t['loops']:.2f}, whole {t['whole'] / yardstick:.2f}")


# a site that no network has, after which a combination is refused
NO_SITE = '[datum]\nsites = [["NONE", "A", "1"]]\nscale = "1"\n'
SIGMAS = ("translation", "rotation", "scale")


def moved(text):
    """The text with each a priori value another in its last digits but four."""
    head, rest = text.split("+SOLUTION/NORMAL_EQUATION_VECTOR", 1)
    digits = re.compile(r"( m    2  \.\d{8})\d{3}")
    return digits.sub(r"\g<1>123", head) + "+SOLUTION/NORMAL_EQUATION_VECTOR" + rest


def least_run(solver, folder, control, line):
    """The least milliseconds of some runs of the control, each of which is refused by this line."""
    (folder / "tried.toml").write_text(control)
    found = []
    for _ in range(RUNS):
        text, status, whole, _ = tried([solver, "combine", "tried.toml", "out.snx", "report"], folder)
        assert status != 0 and text.startswith(f"snxcomb: {line}"), text
        found.append(whole)
    return min(found)


def free_text(rows):
    """Normal equations of stations without an element."""
    text = subprocess.run([TOP / "bench" / "make_file.py", str(rows)], capture_output=True, text=True, check=True).stdout
    head, rest = text.split("MATRIX L\n", 1)
    return head + "MATRIX L\n" + rest[rest.index("-SOLUTION") :]


def values(program, solver, sizes, folder):
    files, rows = sizes
    names = networks(folder, files, rows, rows)
    control = (folder / "control.toml").read_text()
    recover = min(summed(run([program, "combine", *names])[0])["recover"] for _ in range(RUNS)) / files
    same = least_run(solver, folder, control + NO_SITE, "unmatched site")
    for name in names[1:]:
        file = pathlib.Path(name)
        file.write_text(moved(file.read_text()))
    other = least_run(solver, folder, control + NO_SITE, "unmatched site")
    shift = (other - same) / (files - 1)
    print(f"{files} files of {rows} unknowns: recovery of one {recover:.1f} ms, its way to other values {shift:.1f} ms, ratio {shift / recover:.2f}")


def datum(program, solver, rows, folder):
    (folder / "free.snx").write_text(free_text(rows))
    head = '[output]\nagency = "GEN"\ncreated = "24:001:00000"\n[[file]]\nname = "free.snx"\n'
    sites = ", ".join(f'["{k:04d}", "A", "1"]' for k in range(rows // 3))
    bare = least_run(solver, folder, head, "pivot")
    held = least_run(solver, folder, head + f"[datum]\nsites = [{sites}]\n" + "".join(f'{key} = "0.001"\n' for key in SIGMAS), "")
    print(f"{rows // 3} sites: without a datum {bare:.1f} ms, with its seven rows {held:.1f} ms, refused after them")


def memory(solver, sizes, folder):
    files, rows, shared = sizes
    networks(folder, files, rows, shared)
    text, status, whole, peak = tried([solver, "combine", "control.toml", "out.snx", "report"], folder)
    print(f"{files} files of {rows} unknowns, {shared} of them in all: status {status}, {text.strip()!r}")
    print(f"  {whole / 1000:.1f} s, memory {peak:.0f} MB")


def compiled(folder, name):
    subprocess.run(["g++", "-O2", "-o", folder / name, TOP / "bench" / f"{name}.cpp"], check=True)
    return folder / name


def main(what, sizes):
    with tempfile.TemporaryDirectory() as name:
        folder = pathlib.Path(name)
        if what == "memory":
            return memory(built_solver(), sizes or [64, 900, 30], folder)
        program = build("step_times", ["table", "3", "quiet"])
        if what == "kernels":
            kernels(program, compiled(folder, "kernels"), sizes or [300, 900])
        elif what == "inverse":
            inverse(program, compiled(folder, "kernels"), sizes or [300, 900])
        elif what == "values":
            values(program, built_solver(), sizes or [8, 900], folder)
            datum(program, built_solver(), 300, folder)
        elif what == "read":
            read(program, compiled(folder, "reading"), sizes or [900], folder)
        elif what == "write":
            write(program, compiled(folder, "writing"), sizes or [900])
        elif what == "combine":
            loops, reader = compiled(folder, "kernels"), compiled(folder, "reading")
            combine(program, built_solver(), loops, reader, sizes or [8, 300, 210], folder)
        else:
            solve(program, built_solver(), compiled(folder, "kernels"), sizes or [30, 300, 900], folder)


if __name__ == "__main__":
    main(sys.argv[1], [int(word) for word in sys.argv[2:]])
