#!/usr/bin/env python3
"""Runs the program on loose networks, and prints which of them it solves and how wide the bounds are.

    bench/loose.py [ROWS ..]              proves and builds the program first; the default is 30, 300 and 900 rows
    bench/loose.py PROGRAM [ROWS ..]      takes a program that is built
    bench/loose.py reference [ROWS ..]    takes tools/combine.py in its place; the default is 30 and 300 rows

The networks are those of bench/make_file.py: three stations of each or all are held with standard deviations from 0.1 mm to 100 m.
One line is printed for each, as a table of markdown. The condition is that of the normal equations scaled to a diagonal of ones: the
greatest eigenvalue by powers of the matrix, the least by powers of its inverse, in floating point, so its second digit may be wrong, and past
10^13 the first. What is solved is R or R transposed by tools/combine.py, which takes up to half a minute for a network of 300 rows and
some minutes at 900, so it runs beside the program up to 30 rows; where the two answer otherwise, the line says so. The width is the
greatest difference of two bounds.

It needs nothing beside Python; numpy is not used.
"""

import operator
import pathlib
import subprocess
import sys
import tempfile
from fractions import Fraction

import make_file
import times

sys.path.append(str(times.TOP / "tools"))
import combine  # noqa: E402
import control  # noqa: E402
import solve  # noqa: E402

SIGMAS = {"0.0001": "0.1 mm", "0.001": "1 mm", "0.01": "1 cm", "0.1": "0.1 m", "1": "1 m", "10": "10 m", "100": "100 m"}
BESIDE = 30
HEAD = "| unknowns | held | datum | condition | answer | by | widest bounds, m |"


# ---- the condition


def product(a, b):
    return sum(map(operator.mul, a, b))


def scaled(matrix, rows):
    """The matrix with a diagonal of ones: of each row its elements by their columns."""
    root = [float(matrix[i, i]) ** 0.5 for i in range(rows)]
    found = [{} for _ in range(rows)]
    for (i, j), number in matrix.items():
        found[i][j] = number / root[i] / root[j]
    return found


def factor(matrix):
    """The rows of the Cholesky factor, up to the diagonal."""
    rows = []
    for i, elements in enumerate(matrix):
        row = []
        for j in range(i):
            row.append((elements.get(j, 0.0) - product(row, rows[j])) / rows[j][j])
        rows.append(row + [max(elements[i] - product(row, row), 1e-300) ** 0.5])
    return rows


def solved(rows, x):
    """The solution of the system that the factor belongs to."""
    u = []
    for row, value in zip(rows, x):
        u.append((value - product(row, u)) / row[-1])
    for i in reversed(range(len(u))):
        u[i] /= rows[i][i]
        for j, value in enumerate(rows[i][:i]):
            u[j] -= value * u[i]
    return u


def growth(times_matrix, size):
    """The greatest eigenvalue of what multiplies by a matrix, about."""
    numbers = make_file.sequence()
    x, last = [next(numbers) % 1000 + 1.0 for _ in range(size)], 0.0
    for _ in range(200):
        length = product(x, x) ** 0.5
        x = [value / length for value in x]
        y = times_matrix(x)
        found = product(x, y)
        if abs(found - last) <= 1e-4 * found:
            break
        x, last = y, found
    return found


def condition(rows, sigma, held):
    """The greatest eigenvalue of a network's normal equations beside the least."""
    matrix = scaled(make_file.loose_network(rows, sigma, held)[1], rows)
    lower = factor(matrix)
    most = growth(lambda x: [sum(value * x[j] for j, value in row.items()) for row in matrix], rows)
    return most * growth(lambda x: solved(lower, x), rows)


# ---- the answers


def of_program(program, text, folder):
    """The report that the program writes, or the line that it says."""
    (folder / "in").write_text(text)
    said = subprocess.run([program, "solve", "in", "report"], cwd=folder, stderr=subprocess.PIPE, check=False).stderr.decode()
    return said or (folder / "report").read_text()


def of_reference(text):
    """The report by tools/combine.py, or its line, and the table that encloses."""
    try:
        _, _, stack = combine.stack_of(control.alone("in"), {"in": text.encode()})
        solution = combine.solution_of(stack)
    except combine.Refusal as refusal:
        return f"snxcomb: {refusal.line}\n", "none"
    return solve.report(stack, solution), "R" if solution.inverse is solution.pilot else "R transposed"


def width(report):
    """The greatest difference of two bounds."""
    bounds = (line[44:].split()[:2] for line in report.splitlines()[2:-1])
    return max(Fraction(upper) - Fraction(lower) for lower, upper in bounds)


def described(answer):
    """The answer in a word, and the greatest width."""
    if answer.startswith("snxcomb: "):
        return answer.split()[1], ""
    return "solved", f"{float(width(answer)):.0e}"


def line(program, rows, sigma, held, folder):
    """The line of a network."""
    text = make_file.loose(rows, sigma, held)
    answer, by = of_reference(text) if program is None or rows <= BESIDE else (None, "")
    if program is not None:
        reference, answer = answer, of_program(program, text, folder)
        by += "" if reference in (None, answer) else ", and the program answers otherwise"
    word, widest = described(answer)
    stations = "all" if held == rows // 3 else held
    return f"| {rows} | {stations} | {SIGMAS[sigma]} | {condition(rows, sigma, held):.0e} | {word} | {by} | {widest} |"


def main(words):
    program = None
    if words[:1] == ["reference"]:
        sizes = words[1:] or ["30", "300"]
    elif words and not words[0].isdigit():
        program, sizes = pathlib.Path(words[0]).resolve(), words[1:] or ["30", "300", "900"]
    else:
        program, sizes = times.built_solver(), words or ["30", "300", "900"]
    print(HEAD)
    print("|---" * HEAD.count(" | ") + "|---|")
    with tempfile.TemporaryDirectory() as name:
        for rows in map(int, sizes):
            for held in (3, rows // 3):
                for sigma in SIGMAS:
                    print(line(program, rows, sigma, held, pathlib.Path(name)), flush=True)


if __name__ == "__main__":
    main(sys.argv[1:])
