"""Common a priori values, and normal equations brought to them: part of tools/combine.py."""

import sinex
import solve


class TwoUnits(Exception):
    """The least name with two units."""


class Range(Exception):
    """The first interval that passes its bound, by the places of its row and column."""


def rows_of(document):
    return document[sinex.APRIORI].rows if sinex.APRIORI in document else []


def common(inputs, reference):
    """The common value of each name: that of the reference, or else of the first file that has the name."""
    inputs = [(plan, document) for plan, document in inputs if plan.name == reference] + inputs
    rows = [row for _, document in inputs for row in rows_of(document)]
    units = {}
    for row in rows:
        units.setdefault(row.name, set()).add(row.unit)
    clashes = [name for name, found in units.items() if len(found) > 1]
    if clashes:
        raise TwoUnits(min(clashes))
    values = {}
    for row in rows:
        values.setdefault(row.name, row.value)
    return values


def difference(to, by):
    """The word of to - by, times 10^20."""
    if to == by:
        return (0, 0)
    return solve.less(solve.word(to * 10**20), solve.word(by * 10**20))


def product(table, differences, scales):
    """The table times the differences."""
    n = len(table)
    e, a, _ = solve.working(table, [(0, 0)] * n)
    x, running = [], 0
    for j in range(n):
        x.append(solve.scale10(differences[j], scales[j] + e[j] - 8))
        running += solve.size(x[j])
        if running > 2**64:
            raise Range(j, j)
    products = []
    for i in range(n):
        w = solve.scale10(solve.total(solve.product(a[i][j], x[j]) for j in range(n)), e[i] - 12)
        if solve.size(w) > 10**34:
            raise Range(i, i)
        products.append(w)
    return products


def shifted_right(table, right, scales, old, new):
    """The right side at the new values."""
    if old == new:
        return right
    try:
        products = product(table, [difference(to, by) for to, by in zip(new, old)], scales)
    except solve.Refused as refusal:
        raise Range(*refusal.args[1:]) from None
    found = [solve.less(w, v) for w, v in zip(right, products)]
    for i, w in enumerate(found):
        if solve.size(w) > 10**35:
            raise Range(i, i)
    return found
