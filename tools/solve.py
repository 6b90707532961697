#!/usr/bin/env python3
"""The rules from a stack to its report, apart from the program: part of tools/combine.py.

    solve.py NAME   writes what the pilot, or its transpose, start vector and certificate give for a worked table

Everything is exact, in Python's whole numbers and fractions, and written from the rules, not from the program's code. A word
is a pair (lo, hi) of whole numbers. Sums pass over zeros, so that a sparse matrix of 1,000 rows takes seconds.
"""

import math
import sys
from fractions import Fraction

import sinex


class Refused(Exception):
    """A rule refuses the file; its words are the rest of the line."""


def size(w):
    return max(abs(w[0]), abs(w[1]))


def word(value):
    return (math.floor(value), math.ceil(value))


def scale10(w, k):
    if k >= 0:
        return (w[0] * 10**k, w[1] * 10**k)
    return (w[0] // 10**-k, -(-w[1] // 10**-k))


def less(w, v):
    return (w[0] - v[1], w[1] - v[0])


def times(k, w):
    return (k * w[0], k * w[1]) if k >= 0 else (k * w[1], k * w[0])


def total(words):
    lo = hi = 0
    for w in words:
        lo += w[0]
        hi += w[1]
    return (lo, hi)


def nonzero(words):
    """The places at which a list has another number than 0, or another word than [0, 0], with what stands there."""
    return [(k, w) for k, w in enumerate(words) if w not in (0, (0, 0))]


def shifted(w, h):
    return (w[0] >> h, -(-w[1] >> h))


def up(a, b):
    return -(-a // b)


def least(passes):
    k = 0
    while not passes(k):
        k += 1
    return k


def middle(w):
    return (w[0] + w[1]) // 2



# ---- the working table


def exponent(hi):
    if hi <= 0:
        return 0
    e = -100
    while hi * Fraction(100) ** -e > 2**60:
        e += 1
    return e


def working(table, right):
    """The exponents, the working words and the working right side."""
    n = len(table)
    e = [exponent(table[i][i][1]) for i in range(n)]
    a = [[None] * n for _ in range(n)]
    for i in range(n):
        for j in range(i + 1):
            a[i][j] = a[j][i] = scale10(table[i][j], -e[i] - e[j])
            if size(a[i][j]) > 2**61:
                raise Refused("range", i, j)
    d = [scale10(right[i], 12 - e[i]) for i in range(n)]
    for i in range(n):
        if size(d[i]) > 10**37:
            raise Refused("range", i, i)
    return e, a, d


# ---- the pilot


def factor(m):
    n = len(m)
    f = [[0] * n for _ in range(n)]
    before = [[] for _ in range(n)]
    for j in range(n):
        for i in range(j, n):
            t = m[i][j] - sum((v * f[j][k]) >> 60 for k, v in before[i])
            if i == j and t < 1:
                raise Refused("pivot", j)
            if abs(t) > 2**61:
                raise Refused("pivot", j)
            f[i][j] = math.isqrt(t << 60) if i == j else (t << 60) // f[j][j]
            if abs(f[i][j]) > 2**61:
                raise Refused("pivot", j)
        for i in range(j, n):
            if f[i][j]:
                before[i].append((j, f[i][j]))
    return f


def column(f, left, below, g, c):
    """Column c of the approximate inverse at the scale g; left and below are what stands beside the diagonal of f."""
    n = len(f)
    u, x = [0] * n, [0] * n
    for i in range(n):
        s = (2 ** (g + 10) if i == c else 0) - sum((v * u[k]) >> 60 for k, v in left[i])
        u[i] = (s << 60) // f[i][i]
        if abs(s) > 2**66 or abs(u[i]) > 2**64:
            return None
    for i in reversed(range(n)):
        s = u[i] - sum((v * x[k]) >> 60 for k, v in below[i])
        x[i] = (s << 60) // f[i][i]
        if abs(s) > 2**66 or abs(x[i]) > 2**60:
            return None
    return x


def pilot(a):
    n = len(a)
    f = factor([[middle(w) for w in row] for row in a])
    left = [nonzero(f[i][:i]) for i in range(n)]
    below = [[(k, f[k][i]) for k in range(i + 1, n) if f[k][i]] for i in range(n)]
    for g in (50, 40, 30, 20, 10, 0):
        columns = []
        for c in range(n):
            x = column(f, left, below, g, c)
            if x is None:
                break
            columns.append(x)
        else:
            return g, [[(columns[c][i] + 512) >> 10 for c in range(n)] for i in range(n)]
    raise Refused("condition", len(columns))


# ---- the start vector and the certificate


def start_vector(a, d, g, r):
    n = len(a)
    y = [0] * n
    rows = [[(j, middle(w)) for j, w in nonzero(row)] for row in a]
    for _ in range(3):
        q = [middle(d[i]) - sum(m * y[j] for j, m in rows[i]) for i in range(n)]
        h = least(lambda h: all(abs(v >> h) <= 2**66 for v in q))
        y = [y[i] + (sum(r[i][k] * (q[k] >> h) for k in range(n)) >> (g + 60 - h)) for i in range(n)]
        running = 0
        for i in range(n):
            running += abs(y[i])
            if running > 2**64:
                raise Refused("range", i, i)
    return y


def defect(rows, row, i, g):
    """What row i of the approximate inverse leaves of the identity, in units of 2^-30."""
    whole = 2 ** (g + 60)
    low, high = [0] * len(row), [0] * len(row)
    for k, v in nonzero(row):
        for j, w in rows[k]:
            lo, hi = times(v, w)
            low[j] += lo
            high[j] += hi
    low[i], high[i] = low[i] - whole, high[i] - whole
    return up(sum(min(size(w), whole) for w in zip(low, high)), 2 ** (g + 30))


def defects(a, g, r):
    """The defect of each row."""
    rows = [nonzero(row) for row in a]
    return [defect(rows, r[i], i, g) for i in range(len(a))]


def certificate(a, d, g, r, y, parts=None):
    """B, M and the radii; the defects, if they are known, serve each right side."""
    n = len(a)
    rows = [nonzero(row) for row in a]
    parts = defects(a, g, r) if parts is None else parts
    left = [less(d[i], total(times(y[j], w) for j, w in rows[i])) for i in range(n)]
    h = least(lambda h: all(size(shifted(w, h)) <= 2**66 for w in left))
    left = [shifted(w, h) for w in left]
    errors = [up(size(total(times(r[i][k], left[k]) for k in range(n))), 2 ** (g + 60 - h)) for i in range(n)]
    for i in range(n):
        if errors[i] > 2**66:
            raise Refused("residual", i, errors[i])
    b, m = max(parts, default=0), max(errors, default=0)
    if b >= 2**30:
        raise Refused("defect", parts.index(b), b)
    rho = up(m * 2**30, 2**30 - b)
    return b, m, [errors[i] + up(parts[i] * rho, 2**30) for i in range(n)]


def transposed(r):
    return [list(numbers) for numbers in zip(*r)]


def by_either(r, make):
    """The pilot, or the pilot transposed where it is refused, with what is made by it; where both are refused, the pilot's refusal."""
    try:
        return r, make(r)
    except Refused as refusal:
        exchanged = transposed(r)
        try:
            return exchanged, make(exchanged)
        except Refused:
            raise refusal from None


def enclosure(a, d, g, r):
    """The start vector, and the certificate at it."""
    y = start_vector(a, d, g, r)
    return y, certificate(a, d, g, r, y)


# ---- the printed numbers


def to_15_digits(v):
    k = 0
    while abs(v) >= 10 ** (15 + k):
        k += 1
    unit = 10**k
    rounded = (abs(v) + unit // 2) // unit * unit
    return rounded if v >= 0 else -rounded


def product(w, v):
    ends = [a * b for a in w for b in v]
    return (min(ends), max(ends))


def printed(x0, e, a, d, y, w):
    """Lower, upper, residual and place of each row, and the estimates; e has the exponents with the types' scale exponents added."""
    n = len(x0)
    rows, estimates = [], []
    for i in range(n):
        unit = Fraction(10) ** (4 - e[i])
        low, high = math.floor((y[i] - w[i]) * unit), math.ceil((y[i] + w[i]) * unit)
        lower, upper = math.floor(x0[i] * 10**16) + low, math.ceil(x0[i] * 10**16) + high
        estimate = to_15_digits(math.floor(x0[i] * 10**16) + math.floor(y[i] * unit))
        if max(abs(low), abs(high), abs(lower), abs(upper)) > 10**37 or abs(estimate) > 10**33:
            raise Refused("range", i, i)
        rows.append((lower, upper))
        estimates.append(estimate)
    z, running = [], 0
    for i in range(n):
        if Fraction(estimates[i], 10**16) == x0[i]:
            away = (0, 0)
        else:
            away = less((estimates[i] * 10**4,) * 2, word(x0[i] * 10**20))
        z.append(scale10(away, e[i] - 8))
        running += size(z[i])
        if running > 2**65:
            raise Refused("range", i, i)
    residuals = [size(less(d[i], total(product(v, z[j]) for j, v in nonzero(a[i])))) for i in range(n)]
    return [(*rows[i], residuals[i], e[i] - 30) for i in range(n)], estimates


def bound(v):
    return ("-" if v < 0 else "") + f"{abs(v) // 10**16}.{abs(v) % 10**16:016}"


def label(number, name, unit):
    """Columns 1 to 44 of a row."""
    kind, code, point, solution, epoch = name
    texts = kind, code, point.strip().rjust(2), solution.strip().rjust(4), sinex.moment_text(epoch), unit
    return b" ".join([b"%6d" % number, *texts]).decode()


class Solution:
    """What the rules make of a stack: the exponents with the scale exponents added, the pilot, it or its transpose as what encloses, the
    certificate, the printed numbers."""

    def __init__(self, stack):
        e, a, d = working(stack.table, stack.right)
        self.powers = [i + t for i, t in zip(e, stack.scales)]
        self.g, self.pilot = pilot(a)
        self.inverse, (y, (self.b, self.m, w)) = by_either(self.pilot, lambda r: enclosure(a, d, self.g, r))
        self.rows, self.estimates = printed(stack.x0, self.powers, a, d, y, w)


def report(stack, solution):
    lines = ["SNXCOMB BOUNDS 1", f"CERT g={solution.g} B={solution.b} M={solution.m} N={len(solution.rows)}"]
    for k, (lower, upper, residual, place) in enumerate(solution.rows):
        lines.append(f"{label(k + 1, stack.names[k], stack.units[k])} {bound(lower)} {bound(upper)} {residual}E{place}")
    return "\n".join(lines + ["END", ""])


# ---- worked tables: stack words and right sides


def of_numbers(table, right):
    t = [[(v * 10**18, v * 10**18) for v in row] for row in table]
    return t, [(v * 10**18, v * 10**18) for v in right]


def three_stations():
    """Three stations in three axes; in each axis 2,000,000 on the diagonal and -1,000,000 between stations."""
    n = 9
    table = [[0] * n for _ in range(n)]
    for i in range(n):
        for j in range(n):
            if i // 3 == j // 3:
                table[i][j] = 2000000 if i == j else -1000000
    return of_numbers(table, [0] * n)


def diagonal_words(n):
    """The table of bench/kernels.cpp: low ends of intervals of width 1."""
    s = 88172645463325252
    mask = 2**64 - 1
    table = [[None] * n for _ in range(n)]
    for i in range(n):
        for j in range(i + 1):
            s ^= (s << 13) & mask
            s ^= s >> 7
            s ^= (s << 17) & mask
            v = 2**59 + (s >> 6) if i == j else (s >> 6) // (4 * n) * (1 if s & 1 else -1)
            table[i][j] = table[j][i] = (v, v + 1)
    return table, [(0, 0)] * n


def two_rows_at_the_limits():
    """Two dominant rows, as the test of crates/dominant_laws has them: diagonals of four quarters, one beside them."""
    quarter = 10**16
    diagonal, beside, right = (4 * quarter,) * 2, (quarter, quarter + 1), (5 * quarter,) * 2
    return [[diagonal, beside], [beside, diagonal]], [right, right]


TABLES = {
    "two": lambda: of_numbers([[1000000, 999999], [999999, 1000000]], [1999999, 1999999]),
    "stations": three_stations,
    "diagonal": lambda: diagonal_words(3),
    "limits": two_rows_at_the_limits,
}


def show(name):
    e, a, d = working(*TABLES[name]())
    try:
        g, r = pilot(a)
        r, (y, (b, m, w)) = by_either(r, lambda r: enclosure(a, d, g, r))
    except Refused as refusal:
        print(*refusal.args)
        return
    print("e", e)
    print("a", a)
    print("d", d)
    print("g", g)
    print("R", r)
    print("Y", y)
    print("B", b, "M", m, "w", w)


if __name__ == "__main__":
    show(sys.argv[1])
