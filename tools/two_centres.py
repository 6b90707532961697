#!/usr/bin/env python3
"""Makes the SINEX files of examples/two-centres: one network of eight stations and the earth's orientation, by two centres.

    two_centres.py FOLDER

A centre observes the vector between each two stations in a frame that does not turn with the earth: the difference of their
coordinates, turned by the pole's coordinates and UT. So its normal equations don't know where the network lies nor how it is turned.
centre-a.snx has these normal equations. centre-b.snx has a solution with its covariances, for which each coordinate was held at its
a priori value by 5 mm, and the covariances of these constraints. The numbers are made up, from a fixed sequence and by fractions.
"""

import sys
from fractions import Fraction
from math import isqrt
from pathlib import Path

import covariances
from combined_file import e_text
from document_builders import NORMAL, block, joined, row, strip
from made_documents import sequence

AXES = ("STAX", "STAY", "STAZ")
STATIONS = {
    "ALGO": ("40104M002", "Algonquin Park, Canada", "281 55 43.1  45 57 20.9   202.0", (91812959, -434607124, 456197783)),
    "HART": ("30302M002", "Pretoria, South Africa", " 27 42 28.0 -25 53 13.6  1555.0", (508462537, 267036649, -276849397)),
    "KOKB": ("40424M004", "Kokee Park, Hawaii", "200 20  6.4  22  7 34.5  1167.4", (-554383808, -205458703, 238780959)),
    "MATE": ("12734M008", "Matera, Italy", " 16 42 16.1  40 38 56.9   535.6", (464194956, 139304544, 413328744)),
    "SANT": ("41705M003", "Santiago, Chile", "289 19 53.2 -33  9  1.1   723.1", (176969334, -504457407, -346832108)),
    "TIDB": ("50103M108", "Tidbinbilla, Australia", "148 58 48.0 -35 23 57.1   665.3", (-446099608, 268255703, -367444385)),
    "TSKB": ("21730S005", "Tsukuba, Japan", "140  5 15.1  36  6 20.5    67.3", (-395719925, 331019970, 373771177)),
    "WTZR": ("14201M010", "Wettzell, Germany", " 12 52 44.1  49  8 39.1   666.0", (407558062, 93185377, 480156811)),
}
# the pole in milliarcseconds and UT in milliseconds, of which one turns the earth by 15.041 arcseconds
TURNS = {"XPO": Fraction("131.25"), "YPO": Fraction("208.5"), "UT": Fraction("-8.75")}
RADIAN, PER_UT = Fraction("4.848136811E-9"), Fraction("15.041")
NAMES = [(axis, code) for code in STATIONS for axis in AXES] + [(kind, "") for kind in TURNS]
HELD = Fraction(5, 1000)
DATES, MOMENT = "23:365:00000 24:006:86370 24:003:43185", "24:003:43200"
RULE = "*" + "-" * 79
INFORMATION = "*INFO_TYPE_________ INFO________________________________________________________"
SITES = "*CODE PT __DOMES__ T _STATION DESCRIPTION__ APPROX_LON_ APPROX_LAT_ _APP_H_"
EPOCHS = "*CODE PT SOLN T _DATA_START_ __DATA_END__ _MEAN_EPOCH_"
ROWS = "*INDEX TYPE__ CODE PT SOLN _REF_EPOCH__ UNIT S"
PAIRS = "*PARA1 PARA2 _______PARA2+0_______ _______PARA2+1_______ _______PARA2+2_______"


def place(code):
    """The a priori coordinates of the first centre, in metres."""
    return [Fraction(number, 100) for number in STATIONS[code][3]]


def turned(v):
    """What one unit of each of the turns adds to a vector."""
    x, y, z = (RADIAN * part for part in v)
    return {("XPO", ""): (-z, 0, x), ("YPO", ""): (0, z, -y), ("UT", ""): (-y * PER_UT, x * PER_UT, 0)}


def normal(weights):
    """The normal matrix of vectors between each two stations, each with its weight, by pairs of names."""
    found = {(a, b): Fraction(0) for a in NAMES for b in NAMES}
    for (one, other), weight in weights.items():
        parts = turned([b - a for a, b in zip(place(one), place(other))])
        for k, axis in enumerate(AXES):
            seen = {(axis, one): -1, (axis, other): 1} | {name: part[k] for name, part in parts.items() if part[k]}
            for a, first in seen.items():
                for b, second in seen.items():
                    found[a, b] += weight * first * second
    return found


def chances(numbers, least, most):
    """The next number of the sequence, brought between the two."""
    return least + next(numbers) % (most - least + 1)


def weights_of(numbers):
    """The weights of the vectors, in 1/m^2."""
    codes = list(STATIONS)
    return {(one, other): 1000 * chances(numbers, 40, 160) for k, one in enumerate(codes) for other in codes[k + 1 :]}


def offsets(numbers, size):
    """Corrections of up to so many tenths of a millimetre, hundredths of a milliarcsecond and thousandths of a millisecond."""
    unit = {"XPO": 100, "YPO": 100, "UT": 1000}
    return {name: Fraction(chances(numbers, -size, size), unit.get(name[0], 10000)) for name in NAMES}


def root(value):
    """The square root, to ten digits at least."""
    return Fraction(isqrt(int(value * 10**40)), 10**20)


def rounded(value, digits=15):
    """The text of a fraction with so many digits."""
    return e_text(round(value * 10**40), -40, digits)


def labelled(index, name, value, deviation=None):
    """A row; without a deviation that of a right side."""
    kind, code = name
    at = {"epoch": MOMENT, "unit": "m"} if code else {"epoch": MOMENT, "unit": "ms" if kind == "UT" else "mas", "point": "--", "solution": "----"}
    deviation = "" if deviation is None else rounded(deviation, 6)
    return row(index, kind, code or "----", rounded(value), deviation=deviation, **at)


def rows(title, head, values, deviations=None):
    """A block of rows in the order of the names."""
    lines = [labelled(k, name, values[name], deviations and deviations[name]) for k, name in enumerate(NAMES, 1)]
    return [RULE, *block(title, f"{ROWS} {head}", *lines)]


def matrix(title, elements, names=NAMES):
    """The lower triangle, three elements on a line."""
    lines = []
    for i, name in enumerate(names):
        texts = [rounded(elements[name, other]) for other in names[: i + 1]]
        lines += [strip(i + 1, start + 1, *texts[start : start + 3]) for start in range(0, i + 1, 3)]
    return [RULE, *block(title, PAIRS, *lines)]


def front(agency, what):
    """The header and the blocks before the numbers."""
    sites = [f" {code}  A {domes} P {where:22}{at}" for code, (domes, where, at, _) in STATIONS.items()]
    return [
        f"%=SNX 2.02 {agency} 24:010:43200 {agency} {DATES[:25]} P {len(NAMES):05} 2 S",
        *[RULE, *block("FILE/REFERENCE", INFORMATION, f" DESCRIPTION        {what}", " OUTPUT             Week 2295, an example of snxcomb")],
        *[RULE, *block("SITE/ID", SITES, *sites)],
        *[RULE, *block("SOLUTION/EPOCHS", EPOCHS, *(f" {code}  A    1 P {DATES}" for code in STATIONS))],
    ]


def apriori(moved):
    """The a priori values, moved by these numbers."""
    values = {(axis, code): value for code in STATIONS for axis, value in zip(AXES, place(code))}
    values |= {(kind, ""): value for kind, value in TURNS.items()}
    return {name: values[name] + moved[name] for name in NAMES}


def times(elements, vector):
    """The product of a matrix and a vector, both by names."""
    return {name: sum(elements[name, other] * vector[other] for other in NAMES) for name in NAMES}


def equations(truth, numbers):
    """The first centre's file: what is to be corrected is the truth with its own errors."""
    elements, errors = normal(weights_of(numbers)), offsets(numbers, 20)
    right = times(elements, {name: truth[name] + errors[name] for name in NAMES})
    known = apriori(dict.fromkeys(NAMES, 0))
    return [
        *front("ONE", "Free normal equations, numbers made up"),
        *rows("SOLUTION/APRIORI", "____APRIORI_VALUE____ _STD_DEV___", known, dict.fromkeys(NAMES, 0)),
        *rows("SOLUTION/NORMAL_EQUATION_VECTOR", "___RIGHT_HAND_SIDE___", right),
        *matrix(f"{NORMAL} L", elements),
    ]


def solution(truth, numbers):
    """The second centre's file, whose a priori coordinates lie up to 5 mm from the first one's."""
    moved = {name: value if name[1] else 0 for name, value in offsets(numbers, 50).items()}
    free, errors = normal(weights_of(numbers)), offsets(numbers, 20)
    right = times(free, {name: truth[name] + errors[name] - moved[name] for name in NAMES})
    held = [name for name in NAMES if name[1]]
    inverse = covariances.exact_inverse({(a, b): free[a, b] + (HELD**-2 if a == b and a in held else 0) for a in NAMES for b in NAMES}, NAMES)
    known, away = apriori(moved), times(inverse, right)
    deviations = {name: HELD if name in held else 0 for name in NAMES}
    errors = {name: root(inverse[name, name]) for name in NAMES}
    constraints = {(a, b): HELD**2 if a == b else 0 for a in held for b in held}
    return [
        *front("TWO", "Solution with its covariances, numbers made up"),
        *rows("SOLUTION/ESTIMATE", "___ESTIMATED_VALUE___ _STD_DEV___", {name: known[name] + away[name] for name in NAMES}, errors),
        *rows("SOLUTION/APRIORI", "____APRIORI_VALUE____ _STD_DEV___", known, deviations),
        *matrix("SOLUTION/MATRIX_ESTIMATE L COVA", inverse),
        *matrix("SOLUTION/MATRIX_APRIORI L COVA", constraints, held),
    ]


def main(folder):
    numbers = sequence()
    truth = offsets(numbers, 120)
    for name, make in (("centre-a.snx", equations), ("centre-b.snx", solution)):
        lines = [*make(truth, numbers), "%ENDSNX"]
        assert all(len(line) <= 80 for line in lines)
        Path(folder, name).write_bytes(joined(lines))


if __name__ == "__main__":
    main(sys.argv[1])
