#!/usr/bin/env python3
"""Writes SINEX files of normal equations, for measuring: with dense, strongly diagonal matrices, and of loose networks.

    bench/make_file.py ROWS [VALUES [TRIANGLE]]
    bench/make_file.py networks FOLDER FILES ROWS SHARED [VALUES [TRIANGLE]]
    bench/make_file.py dominant ROWS [VALUES [TRIANGLE]]
    bench/make_file.py loose ROWS SIGMA HELD [VALUES [TRIANGLE]]

The first writes one file to standard output. ROWS is from 1 to 1,000. The matrix has VALUES elements on a line, 1 or 3, and 1
where it isn't given; its TRIANGLE is L or U, and L where it isn't given. All files of as many rows say the same in another form.

The second writes FILES networks of stations, from 1 to 64, into FOLDER as network-01.snx and so on, and a control file
control.toml that combines them, each with the weight 1. Each has ROWS unknowns; the same SHARED of them are in all. Both are
multiples of 3, since a station has three coordinates. A name has one a priori value in all files.

The numbers of these come from a fixed sequence (xorshift, Marsaglia 2003), so each run writes the same bytes. The diagonal lies
between 1,000,000 and 2,000,000, and all elements beside it are together less than a quarter of it.

The third writes one file whose diagonal lies between 1,000,000 and 1,100,000, so that all rows of its working table have one
scale exponent. Each is more than four times the sizes of its row's others together; an interval of the working table is one
number or two neighbours, and the right sides are below 100.

The fourth writes a loose network of ROWS / 3 stations. Baselines tie each station to the one before it and to at most two
others before it, with standard deviations of 1 to 2.2 mm in each axis. Alone they leave the network free to be moved as a whole. HELD
stations, the first ones, are held at their a priori values with the standard deviation SIGMA in metres, a power of ten from 0.0001
to 10000; that is the file's datum. All elements are exact.
"""

import pathlib
import sys
from fractions import Fraction

MASK = 2**64 - 1


def sequence():
    s = 88172645463325252
    while True:
        s ^= (s << 13) & MASK
        s ^= s >> 7
        s ^= (s << 17) & MASK
        yield s


def field(mantissa, exponent):
    """A value in 21 columns: a sign, a point, 15 digits and the exponent."""
    sign = "-" if mantissa < 0 else " "
    return f"{sign}.{abs(mantissa):015d}E{exponent:+03d}"


def names(rows):
    stations = -(-rows // 3)
    return [(axis, f"{k:04d}") for axis in "XYZ" for k in range(stations)][:rows]


def elements(rows, numbers):
    """The elements of the lower triangle, row by row, as they are written."""
    most = 25 * 10**12 // rows
    for i in range(rows):
        row = []
        for j in range(i + 1):
            v = next(numbers)
            row.append(field(10**14 + v % 10**14 if i == j else (v % most) * (1 if v & 1 else -1), 7))
        yield row


def matrix_lines(lower, values, triangle):
    """The lines of the triangle, with so many elements on each."""
    rows = len(lower)
    for i in range(rows):
        columns = range(i + 1) if triangle == "L" else range(i, rows)
        for start in columns[::values]:
            some = [lower[max(i, j)][min(i, j)] for j in range(start, min(start + values, columns.stop))]
            yield f"{i + 1:6d}{start + 1:6d} " + " ".join(some)


def text(parameters, vector, lower, values=1, triangle="L"):
    """The whole file of the parameters, each with its axis, its station and its a priori value; of the fields of the vector and the matrix."""
    rows = len(parameters)
    assert 1 <= rows <= 1000 and values in (1, 3) and triangle in ("L", "U"), "see the head of this file"
    out = [f"%=SNX 2.02 GEN 24:001:00000 GEN 24:001:00000 24:002:00000 P {rows:05d} 2 S"]
    labels = [f"{k:6d} STA{axis}   {code}  A    1 24:001:00000 m    2 " for k, (axis, code, _) in enumerate(parameters, 1)]
    out.append("+SOLUTION/APRIORI")
    for label, (_, _, value) in zip(labels, parameters):
        out.append(label + field(value, 7) + " .000000E+00")
    out.append("-SOLUTION/APRIORI")
    out.append("+SOLUTION/NORMAL_EQUATION_VECTOR")
    out += [label + it for label, it in zip(labels, vector)]
    out.append("-SOLUTION/NORMAL_EQUATION_VECTOR")
    title = f"SOLUTION/NORMAL_EQUATION_MATRIX {triangle}"
    out.append("+" + title)
    out += matrix_lines(lower, values, triangle)
    out.append("-" + title)
    out.append("%ENDSNX")
    return "\n".join(out) + "\n"


def dense(parameters, numbers, *form):
    """The whole file of the parameters, with a dense matrix."""
    vector = [field(next(numbers) % (2 * 10**14) - 10**14, 3) for _ in parameters]
    return text(parameters, vector, list(elements(len(parameters), numbers)), *form)


def value(numbers):
    """The next a priori value."""
    return next(numbers) % (9 * 10**14) + 10**14


def single(rows, *form):
    """The text of one file."""
    numbers = sequence()
    return dense([(axis, code, value(numbers)) for axis, code in names(rows)], numbers, *form)


def network(stations, numbers, *form):
    """The text of a network: its stations by their codes, with the a priori values of the three axes."""
    return dense([(axis, code, values[k]) for k, axis in enumerate("XYZ") for code, values in stations.items()], numbers, *form)


def write_networks(folder, files, rows, shared, *form):
    """Writes the networks and their control file into the folder."""
    assert 1 <= files <= 64 and rows % 3 == shared % 3 == 0 and shared <= rows, "see the head of this file"
    numbers = sequence()
    own = (rows - shared) // 3
    stations = {f"{k:04X}": [value(numbers) for _ in "XYZ"] for k in range(shared // 3 + files * own)}
    codes = list(stations)
    control = '[output]\nagency = "GEN"\ncreated = "24:001:00000"\n'
    for k in range(files):
        start = shared // 3 + k * own
        of_file = {code: stations[code] for code in codes[: shared // 3] + codes[start : start + own]}
        name = f"network-{k + 1:02d}.snx"
        (folder / name).write_text(network(of_file, numbers, *form))
        control += f'[[file]]\nname = "{name}"\n'
    (folder / "control.toml").write_text(control)


# ---- dominant matrices


def dominant_elements(rows, numbers):
    """The elements of the lower triangle, row by row, as they are written; two of three are great, and one is below 1."""
    most = min(25 * 10**16 // rows, 10**15)
    for i in range(rows):
        row = []
        for j in range(i):
            v = next(numbers)
            row.append(field(v % most * (1 if v >> 63 else -1), 0 if v >> 32 & 3 == 0 else 3))
        yield row + [field(10**14 + next(numbers) % 10**13, 7)]


def dominant(rows, *form):
    """The text of a file with a dominant matrix."""
    numbers = sequence()
    parameters = [(axis, code, value(numbers)) for axis, code in names(rows)]
    vector = [field(next(numbers) % (2 * 10**15) - 10**15, 2) for _ in parameters]
    return text(parameters, vector, list(dominant_elements(rows, numbers)), *form)


# ---- loose networks


def exact_field(number, tens):
    """number * 10^tens in 21 columns, exactly."""
    digits = len(str(abs(number)))
    mantissa = number * 10**15 // 10**digits
    assert mantissa * 10**digits == number * 10**15, "an element needs more than 15 digits"
    return field(mantissa, digits + tens if number else 0)


def others_of(station, numbers):
    """The stations to which a station is tied."""
    return sorted({station - 1, next(numbers) % station, next(numbers) % station})


def weights(numbers):
    """The weight matrix of a baseline, in 1 / m^2: standard deviations of 1 to 2.2 mm, and small correlations."""
    lower = {(a, b): 200000 + next(numbers) % 800000 if a == b else next(numbers) % 80000 - 40000 for a in range(3) for b in range(a + 1)}
    return [[lower[max(a, b), min(a, b)] for b in range(3)] for a in range(3)]


def add_baseline(matrix, vector, ends, numbers):
    """Adds the normal equations of a baseline between stations, each by its rows: a correction of its length of 3 cm at most."""
    p = weights(numbers)
    away = [next(numbers) % 601 - 300 for _ in range(3)]
    for end, sign in zip(ends, (1, -1)):
        for a, row in enumerate(end):
            vector[row] += sign * sum(p[a][b] * away[b] for b in range(3))
            for other, turn in zip(ends, (1, -1)):
                for b, column in enumerate(other):
                    matrix[row, column] = matrix.get((row, column), 0) + sign * turn * p[a][b]


def loose_equations(stations, sigma, held, numbers):
    """The matrix by pairs of rows and the vector of a loose network, in units of 10^-8 and of 10^-4."""
    rows = [[axis * stations + k for axis in range(3)] for k in range(stations)]
    matrix, vector = {}, [0] * (3 * stations)
    for k in range(1, stations):
        for other in others_of(k, numbers):
            add_baseline(matrix, vector, (rows[k], rows[other]), numbers)
    matrix = {pair: 10**8 * number for pair, number in matrix.items()}
    weight = 10**8 / Fraction(sigma) ** 2
    assert weight.denominator == 1, "see the head of this file"
    for station in rows[:held]:
        for row in station:
            matrix[row, row] = matrix.get((row, row), 0) + int(weight)
    return matrix, vector


def loose_network(rows, sigma, held):
    """The parameters of a loose network, its matrix and its vector."""
    assert rows % 3 == 0 and 1 <= held <= rows // 3, "see the head of this file"
    numbers = sequence()
    parameters = [(axis, code, value(numbers)) for axis, code in names(rows)]
    return parameters, *loose_equations(rows // 3, sigma, held, numbers)


def exact_text(parameters, matrix, vector, *form):
    """The text of the parameters with a matrix in units of 10^-8 and a vector in those of 10^-4."""
    lower = [[exact_field(matrix.get((i, j), 0), -8) for j in range(i + 1)] for i in range(len(vector))]
    return text(parameters, [exact_field(number, -4) for number in vector], lower, *form)


def loose(rows, sigma, held, *form):
    """The text of a loose network."""
    return exact_text(*loose_network(rows, sigma, held), *form)


def form(words):
    """VALUES and TRIANGLE, where they are given."""
    return [int(word) for word in words[:1]] + words[1:]


if __name__ == "__main__":
    what, *words = sys.argv[1:]
    if what == "networks":
        write_networks(pathlib.Path(words[0]), *(int(word) for word in words[1:4]), *form(words[4:]))
    elif what == "dominant":
        sys.stdout.write(dominant(int(words[0]), *form(words[1:])))
    elif what == "loose":
        sys.stdout.write(loose(int(words[0]), words[1], int(words[2]), *form(words[3:])))
    else:
        sys.stdout.write(single(int(what), *form(words)))
