"""Solves the exact system of a small combination in fractions, and looks whether a report's bounds hold it and a combined file has it.

No interval of tools/combine.py is used. Which value is a name's common one, which blocks of a file count, and the coefficients of
the datum's rows, it has from tools/apriori.py, tools/recovery.py and tools/datum.py, so a wrong choice of these shows in other rows
alone. How far the deviations may be off it has from the defect that the report tells.
"""

from fractions import Fraction

import apriori
import combine
import control
import covariances
import datum
import recovery
import sinex
import solve


def summed(files, found):
    """The names in order, their common values, and the matrix and the right side of all files with the datum's rows."""
    inputs = combine.read_inputs(files, found.files)
    values = apriori.common(inputs, found.reference)
    systems = [recovery.exact(plan, document) for plan, document in inputs]
    names = sorted({name for known, _, _ in systems for name in known})
    place = {name: i for i, name in enumerate(names)}
    matrix = [[Fraction(0)] * len(names) for _ in names]
    right = [Fraction(0)] * len(names)
    for known, elements, vector in systems:
        for name, value in vector.items():
            right[place[name]] += value
        for (row, column), element in elements.items():
            right[place[row]] -= element * (values[column] - known[column])
            matrix[place[row]][place[column]] += element
    common = [values[name] for name in names]
    if found.datum:
        for (i, j), value in datum.exact_matrix(names, common, found.datum).items():
            matrix[i][j] += value
    return names, common, matrix, right


def solution(matrix, right):
    """The solution of a system, or nothing where a column has no pivot."""
    n = len(matrix)
    rows = [row + [b] for row, b in zip(matrix, right)]
    for k in range(n):
        pivot = next((i for i in range(k, n) if rows[i][k]), None)
        if pivot is None:
            return None
        rows[k], rows[pivot] = rows[pivot], rows[k]
        for i in range(k + 1, n):
            factor = rows[i][k] / rows[k][k]
            if factor:
                rows[i] = [a - factor * b for a, b in zip(rows[i], rows[k])]
    x = [Fraction(0)] * n
    for k in reversed(range(n)):
        x[k] = (rows[k][n] - sum(rows[k][j] * x[j] for j in range(k + 1, n))) / rows[k][k]
    return x


def holds(files, words, report):
    """Whether each row of the report holds the value of the exact solution."""
    found = control.read_control(files[words[1]]) if words[0] == "combine" else control.alone(words[1])
    names, common, matrix, right = summed(files, found)
    x = solution(matrix, right)
    lines = report.splitlines()[2:-1]
    if x is None or len(lines) != len(names):
        return False
    for line, name, value, away in zip(lines, names, common, x):
        lower, upper = (Fraction(text) for text in line[44:].split()[:2])
        if not lower <= value + away <= upper:
            return False
    return True


def is_near(printed, value, digits, width=0):
    """Whether a number is another with so many digits, up to twice the half of the last one and a width."""
    return abs(printed - value) <= abs(value) * Fraction(10) ** (1 - digits) + width


def is_file(files, words, made):
    """Whether the combined file is read without a bad line, and has the names, values, matrix and right side of the exact system.

    Near is what rounding leaves, and the width of enclosed inverses of covariances beside the greatest element.
    """
    found = control.read_control(files[words[1]])
    document = sinex.read_document(made[words[2]].encode("latin-1"))
    rows = [document[block].rows for block in (sinex.ESTIMATE, sinex.APRIORI, sinex.VECTOR)]
    names, common, matrix, right = summed(files, found)
    x = solution(matrix, right)
    bounds = [[Fraction(text) for text in line[44:].split()[:2]] for line in made[words[3]].splitlines()[2:-1]]
    found.datum = None
    free = summed(files, found)[2]
    given = document[sinex.NORMAL_MATRIX].elements
    wide = max(abs(value) for row in free for value in row) / 10**12
    return (
        all([row.name for row in block] == names for block in rows)
        and all(is_near(row.value, value, 15, Fraction(1, 10**99)) for row, value in zip(rows[1], common))
        and all(is_near(row.value, value + away, 15, high - low) for row, value, away, (low, high) in zip(rows[0], common, x, bounds))
        and all(is_near(row.value, value, 15, 1000 * wide) for row, value in zip(rows[2], right))
        and all(is_near(given.get((a, b), 0), free[i][j], 14, wide) for i, a in enumerate(names) for j, b in enumerate(names))
        and is_deviation(rows[0], matrix, made[words[3]])
    )


def is_deviation(rows, matrix, report):
    """Whether the deviations are the roots of the inverse's diagonal, up to what the defect in the report leaves, where there are few."""
    if len(rows) > 12:
        return True
    places = range(len(rows))
    inverse = covariances.exact_inverse({(i, j): matrix[i][j] for i in places for j in places}, list(places))
    powers = [solve.exponent(matrix[i][i] * 10**18) for i in places]
    defect = Fraction(int(report.partition(" B=")[2].split()[0]), 2**30)
    widths = [defect * max(abs(inverse[k, i]) * Fraction(10) ** (powers[k] - powers[i]) for k in places) for i in places]
    return all(is_near(row.deviation**2, inverse[i, i], 5, widths[i]) for i, row in enumerate(rows))
