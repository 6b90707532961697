"""From the blocks of a file to its normal equations as words by name: part of tools/combine.py.

A word stands at a pair of names or at a name, and pairs without one are zero.
"""

from fractions import Fraction

import apriori
import covariances
import datum
import sinex
import solve
from covariances import Range, lower

MOST = 10**34
MOST_BEFORE = 10**37


class Missing(Exception):
    """A block that is needed."""


class Unmatched(Exception):
    """A name without the row that it must have."""


class Empty(Exception):
    """There is no row."""


class Blocks:
    """Of a document the rows that name the parameters, the a priori rows, the matrix, and the constraints that are removed."""

    def __init__(self, plan, document):
        self.apriori = needed(document, sinex.APRIORI)
        both = sinex.VECTOR in document and sinex.NORMAL_MATRIX in document
        self.normal = plan.form == "neq" or (plan.form == "auto" and both)
        self.held = "none"
        if self.normal:
            self.rows, self.matrix = needed(document, sinex.VECTOR), needed(document, sinex.NORMAL_MATRIX)
            return
        self.rows, self.matrix = needed(document, sinex.ESTIMATE), needed(document, sinex.ESTIMATE_MATRIX)
        self.held = plan.constraints
        if self.held == "auto":
            self.held = "matrix" if sinex.APRIORI_MATRIX in document else "none"
        self.constraints = needed(document, sinex.APRIORI_MATRIX) if self.held == "matrix" else None

    def constrained(self):
        """The names of the constrained a priori rows, in the order of the rows."""
        if self.held == "matrix":
            touched = {name for pair in self.constraints.elements for name in pair}
            return [row.name for row in self.apriori.rows if row.name in touched]
        if self.held == "sigma":
            return [row.name for row in self.apriori.rows if row.deviation]
        return []


def needed(document, block):
    if block not in document:
        raise Missing(block.decode())
    return document[block]


def weighted(weight, value, power, where):
    """The word of a number times the weight."""
    w = solve.word(weight * value * Fraction(10) ** power)
    if solve.size(w) > MOST:
        raise Range(*where)
    return w


def over_square(weight, sigma, power, where):
    """The word of the weight over the square of a standard deviation: the square first, then the digits of the weight, then its tens."""
    w = datum.over_square(1, sigma, power)
    digits, tens = datum.parts_of(weight)
    if w is None:
        raise Range(*where)
    w = solve.times(digits, w)
    if solve.size(w) > MOST_BEFORE:
        raise Range(*where)
    w = solve.scale10(w, tens)
    if solve.size(w) > MOST:
        raise Range(*where)
    return w


def table_of(matrix, rows, weight, names, t):
    """The words of an information matrix, at both orders of a pair: as it stands, or by its covariances."""
    if matrix.content in (b"COVA", b"CORR"):
        return covariances.information(matrix, rows, weight, names, t)
    table = {}
    for row, column in lower(names):
        if value := matrix.elements.get((row, column), 0):
            table[row, column] = table[column, row] = weighted(weight, value, 18 - t[row] - t[column], (row, column))
    return table


def constraint_table(blocks, weight, names, t):
    if blocks.held == "matrix":
        return table_of(blocks.constraints, blocks.apriori, weight, sorted(blocks.constrained()), t)
    if blocks.held == "sigma":
        sigma = {row.name: row.deviation for row in blocks.apriori.rows}
        return {(name, name): over_square(weight, sigma[name], 18 - 2 * t[name], (name, name)) for name in names if sigma[name]}
    return {}


def right_of(blocks, weight, names, t, table):
    """The right side: that of the file, or the matrix of the estimates times estimates less a priori values."""
    values = {row.name: row.value for row in blocks.rows.rows}
    if blocks.normal:
        return [weighted(weight, values[name], 18 - t[name], (name, name)) for name in names]
    differences = [apriori.difference(values[name], blocks.apriori.by_name[name].value) for name in names]
    if all(w == (0, 0) for w in differences):
        return differences
    square = [[table.get((row, column), (0, 0)) for column in names] for row in names]
    try:
        return apriori.product(square, differences, [t[name] for name in names])
    except apriori.Range as passed:
        raise Range(*(names[i] for i in passed.args)) from None
    except solve.Refused as refusal:
        raise Range(*(names[i] for i in refusal.args[1:])) from None


def recover(plan, document, scales):
    """The names, what is known of each, the table and the right side."""
    blocks = Blocks(plan, document)
    known = blocks.apriori.by_name
    for row in blocks.rows.rows:
        if row.name not in known:
            raise Unmatched(row.name)
    for name in blocks.constrained():
        if name not in blocks.rows.by_name:
            raise Unmatched(name)
    if not blocks.rows.rows:
        raise Empty
    names = sorted(blocks.rows.by_name)
    t = {name: scales.get(name.kind, 0) for name in names}
    table = table_of(blocks.matrix, blocks.rows, plan.weight, names, t)
    removed = constraint_table(blocks, plan.weight, names, t)
    right = dict(zip(names, right_of(blocks, plan.weight, names, t, table)))
    for pair, w in removed.items():
        table[pair] = solve.less(table.get(pair, (0, 0)), w)
    return {name: (known[name].value, known[name].unit, t[name]) for name in names}, table, right


# ---- the exact system of a file, apart from every word


def exact(plan, document):
    """The rows' a priori values, and the matrix and the right side by names, in fractions."""
    blocks = Blocks(plan, document)
    values = {row.name: row.value for row in blocks.rows.rows}
    known = {name: blocks.apriori.by_name[name].value for name in values}
    given = covariances.exact_information(blocks.matrix, blocks.rows, sorted(values))
    matrix = {pair: value * plan.weight for pair, value in given.items()}
    if blocks.normal:
        return known, matrix, {name: value * plan.weight for name, value in values.items()}
    right = dict.fromkeys(values, Fraction(0))
    for (row, column), value in matrix.items():
        right[row] += value * (values[column] - known[column])
    if blocks.held == "matrix":
        held = covariances.exact_information(blocks.constraints, blocks.apriori, sorted(blocks.constrained()))
        for pair, value in held.items():
            matrix[pair] = matrix.get(pair, 0) - value * plan.weight
    if blocks.held == "sigma":
        for row in blocks.apriori.rows:
            if row.deviation:
                matrix[row.name, row.name] = matrix.get((row.name, row.name), 0) - plan.weight / row.deviation**2
    return known, matrix, right
