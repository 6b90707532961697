"""From covariances and correlations to information matrices, as words by name: part of tools/combine.py.

A table has the words of pairs of names, in both orders; pairs without one are zero. Everything is written from the rules.
"""

from fractions import Fraction

import datum
import solve

MOST = 10**34
KAPPA = 24


class Range(Exception):
    """The names of the row and the column of the first word that passes its bound."""


class NoWeight(Exception):
    """The first name whose standard deviation is missing or not positive."""


class NotInverted(Exception):
    """A rule refuses the inverse: the cause, the name, and the number of what passes."""


def lower(names):
    return ((row, column) for i, row in enumerate(names) for column in names[: i + 1])


def within(w, row, column):
    if solve.size(w) > MOST:
        raise Range(row, column)
    return w


# ---- covariances


def covariances(elements, names, t):
    """The words of covariances."""
    table = {}
    for row, column in lower(names):
        value = elements.get((row, column), 0)
        w = solve.word(value * Fraction(10) ** (KAPPA + t[row] + t[column]))
        table[row, column] = table[column, row] = within(w, row, column)
    return table


def deviations_of(matrix, rows, names):
    """The standard deviation of each name: that of its row where all diagonal elements are 1, and else its diagonal element."""
    diagonal = {name: matrix.get((name, name), 0) for name in names}
    if all(value == 1 for value in diagonal.values()):
        return {name: rows.by_name[name].deviation for name in names}
    return diagonal


def digits_of(sigma):
    """A standard deviation as a number of 18 digits and its power of ten."""
    m, k = datum.parts_of(sigma)
    more = 18 - len(str(m))
    return m * 10**more, k - more


def correlated(elements, rows, names, t):
    """The words of covariances, from correlations and standard deviations."""
    sigma = deviations_of(elements, rows, names)
    table, parts = {}, {}
    for i, row in enumerate(names):
        if sigma[row] is None or sigma[row] <= 0:
            raise NoWeight(row)
        parts[row] = digits_of(sigma[row])
        for column in names[: i + 1]:
            correlation = 1 if row == column else elements.get((row, column), 0)
            if abs(correlation) > 1:
                raise Range(row, column)
            (m, k), (n, l) = parts[row], parts[column]
            v = solve.scale10(solve.times(m, solve.word(correlation * 10**18)), -18)
            w = solve.scale10(solve.times(n, v), k + l + KAPPA + t[row] + t[column])
            table[row, column] = table[column, row] = within(w, row, column)
    return table


# ---- the inverse


def columns_of(a, g, r, v):
    """The start vector and the radii of each column, which are refused one after another."""
    n = len(a)
    parts = solve.defects(a, g, r)
    columns = []
    for c in range(n):
        d = [(10**v, 10**v) if i == c else (0, 0) for i in range(n)]
        try:
            y = solve.start_vector(a, d, g, r)
        except solve.Refused as refusal:
            raise solve.Refused("range", refusal.args[1], c) from None
        columns.append((y, solve.certificate(a, d, g, r, y, parts)[2]))
    return columns


def inverse(table, kappa):
    """The words of the inverse of a square of words, up to the diagonal."""
    n = len(table)
    e, a, _ = solve.working(table, [(0, 0)] * n)
    g, r = solve.pilot(a)
    v = solve.least(lambda v: 10 ** (v + 1) > 2 ** (63 + g))
    _, columns = solve.by_either(r, lambda r: columns_of(a, g, r, v))
    words = []
    for i in range(n):
        words.append([])
        for j in range(i + 1):
            y, w = columns[j][0][i], columns[j][1][i]
            word = solve.scale10((y - w, y + w), kappa + 18 - v - e[i] - e[j])
            if solve.size(word) > MOST:
                raise solve.Refused("range", i, j)
            words[i].append(word)
    return words


def inverted(table, names):
    """The words of the inverse by names."""
    try:
        words = inverse([[table[row, column] for column in names] for row in names], KAPPA)
    except solve.Refused as refusal:
        cause, place, *rest = refusal.args
        if cause == "range":
            raise Range(names[place], names[rest[0]]) from None
        raise NotInverted(cause, names[place], *rest) from None
    return {(names[i], names[j]): w for i, row in enumerate(words) for j, w in enumerate(row)}


# ---- information matrices


def weighted(table, weight, names):
    """The words times the weight: first its digits, then its power of ten."""
    digits, tens = datum.parts_of(weight)
    found = {}
    for row, column in lower(names):
        w = solve.times(digits, table[row, column])
        if solve.size(w) > 10**37:
            raise Range(row, column)
        found[row, column] = found[column, row] = within(solve.scale10(w, tens), row, column)
    return found


def information(matrix, rows, weight, names, t):
    """The words of the inverse of covariances or correlations, times the weight."""
    if matrix.content == b"COVA":
        table = covariances(matrix.elements, names, t)
    else:
        table = correlated(matrix.elements, rows, names, t)
    return weighted(inverted(table, names), weight, names)


# ---- the exact matrices, apart from every word


def exact_covariances(matrix, rows, names):
    """The covariances in fractions."""
    if matrix.content == b"COVA":
        return {(row, column): matrix.elements.get((row, column), Fraction(0)) for row in names for column in names}
    sigma = deviations_of(matrix.elements, rows, names)
    found = {}
    for row in names:
        for column in names:
            correlation = Fraction(1) if row == column else matrix.elements.get((row, column), Fraction(0))
            found[row, column] = correlation * sigma[row] * sigma[column]
    return found


def exact_inverse(table, names):
    """The inverse of a table of fractions, by elimination."""
    n = len(names)
    rows = [[Fraction(table[row, column]) for column in names] + [Fraction(i == j) for j in range(n)] for i, row in enumerate(names)]
    for k in range(n):
        pivot = next(i for i in range(k, n) if rows[i][k])
        rows[k], rows[pivot] = rows[pivot], rows[k]
        rows[k] = [value / rows[k][k] for value in rows[k]]
        for i in range(n):
            if i != k and rows[i][k]:
                factor = rows[i][k]
                rows[i] = [a - factor * b for a, b in zip(rows[i], rows[k])]
    return {(names[i], names[j]): rows[i][n + j] for i in range(n) for j in range(n)}


def exact_information(matrix, rows, names):
    """The information matrix that a matrix stands for, in fractions."""
    if matrix.content not in (b"COVA", b"CORR"):
        return matrix.elements
    return exact_inverse(exact_covariances(matrix, rows, names), names)
