"""The rows of a datum: part of tools/combine.py."""

import math
from fractions import Fraction

import solve

AXES = (b"STAX  ", b"STAY  ", b"STAZ  ")

# of each row its kind, its coefficients at a position, and how many powers of ten its products are over
ROWS = (
    ("translation", lambda x, y, z: (1, 0, 0), 0),
    ("translation", lambda x, y, z: (0, 1, 0), 0),
    ("translation", lambda x, y, z: (0, 0, 1), 0),
    ("rotation", lambda x, y, z: (0, -z, y), 14),
    ("rotation", lambda x, y, z: (z, 0, -x), 14),
    ("rotation", lambda x, y, z: (-y, x, 0), 14),
    ("scale", lambda x, y, z: (x, y, z), 14),
)


class Unmatched(Exception):
    """The first site of which a coordinate is not there exactly once."""


class Range(Exception):
    """The first interval that passes its bound, by the places of its row and column."""


def parts_of(value):
    """The whole number and the power of ten of a decimal, without zeros at the end of the number."""
    mant, exp = value, 0
    while mant.denominator > 1:
        mant, exp = mant * 10, exp - 1
    while mant % 10 == 0:
        mant, exp = mant / 10, exp + 1
    return int(mant), exp


def over_square(h, sigma, z):
    """The word of h * 10^z / sigma^2, or nothing where it passes 10^37."""
    if h == 0:
        return (0, 0)
    m, k = parts_of(sigma)
    u = z - 2 * k
    if u < 0:
        w = solve.word(Fraction(h, m * m * 10**-u))
    else:
        tens = 0
        while tens < u and abs(h) * 10 ** (tens + 1) <= 10**37:
            tens += 1
        w = solve.scale10(solve.word(Fraction(h * 10**tens, m * m)), u - tens)
    return w if solve.size(w) <= 10**37 else None


def coordinates(names, site):
    """The places of a site's coordinates among the names."""
    return [[i for i, name in enumerate(names) if name.kind == axis and tuple(name[1:4]) == site] for axis in AXES]


def coefficients(names, values, sites):
    """Of each row its kind, its power of ten, and its coefficients by place."""
    found = [(kind, {}, reach) for kind, _, reach in ROWS]
    for site in sites:
        places = coordinates(names, site)
        if any(len(here) != 1 for here in places):
            raise Unmatched(site)
        places = [here[0] for here in places]
        position = [math.floor(values[i]) for i in places]
        for (_, by_place, _), (_, at, _) in zip(found, ROWS):
            by_place.update(zip(places, at(*position)))
    return found


def add(names, values, scales, table, datum):
    """Adds the rows to the table."""
    for kind, h, reach in coefficients(names, values, datum.sites):
        sigma = datum.sigmas[kind]
        if sigma is None:
            continue
        places = sorted(h)
        for i in places:
            for j in [j for j in places if j <= i]:
                w = over_square(h[i] * h[j], sigma, 18 - reach - scales[i] - scales[j])
                if w is None or solve.size(w) > 10**34:
                    raise Range(i, j)
                table[i][j] = table[j][i] = (table[i][j][0] + w[0], table[i][j][1] + w[1])


# ---- the exact system, apart from every word


def exact_matrix(names, values, datum):
    """The sum of h h' / sigma^2 in fractions, by places."""
    matrix = {}
    for kind, h, reach in coefficients(names, values, datum.sites):
        sigma = datum.sigmas[kind]
        if sigma is not None:
            for i in h:
                for j in h:
                    matrix[i, j] = matrix.get((i, j), 0) + Fraction(h[i] * h[j]) / (sigma * sigma * 10**reach)
    return matrix
