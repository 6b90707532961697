"""SINEX documents that are made from a few by a fixed sequence of numbers; tools/combine.py alone says what comes."""

import sys
from pathlib import Path

import combine
from document_builders import Case, EXAMPLES, NORMAL, ONE_LINES, after, bare, block, changed, joined, network, one, put, row, strip, whole

sys.path.append(str(Path(__file__).resolve().parent.parent / "bench"))
import make_file  # noqa: E402


def sequence():
    """The numbers of a fixed sequence (xorshift, Marsaglia 2003)."""
    s = 88172645463325252
    while True:
        s ^= (s << 13) & (2**64 - 1)
        s ^= s >> 7
        s ^= (s << 17) & (2**64 - 1)
        yield s >> 11


def rich():
    """A document with every block that is read."""
    names = [{"kind": kind, "code": code, "epoch": "24:004:43200"} for code in ("GRAZ", "WTZR") for kind in ("STAX", "STAY")]
    names += [{"kind": "XPO", "code": "----", "point": "--", "solution": "----", "unit": "mas", "epoch": "24:004:43200"}]
    values = ("4194423.85", "1162702.67", "4075580.62", "931853.77", ".1234D+03")
    apriori = [row(k, value=value, **name) for k, (name, value) in enumerate(zip(names, values), 1)]
    vector = [bare(k, value=value, **name) for k, (name, value) in enumerate(zip(names, ("412.5", "-187.25", ".9E+02", "-61.5", "0")), 1)]
    estimates = [row(k, value=value, deviation=".1E-02", **name) for k, (name, value) in enumerate(zip(names, values), 1)]
    lower = [
        strip(1, 1, "640000"),
        strip(2, 1, "-1.2E5", "655000"),
        strip(3, 1, "150000", "-2E4", "610000"),
        strip(4, 1, "-18000", "", "-.11+6"),
        strip(4, 4, "618000"),
        strip(5, 5, "100"),
    ]
    upper = [
        strip(1, 1, "1E-6", "0", "1E-8"), strip(2, 2, "1E-6"), strip(3, 3, "1E-6", "0", "0"), strip(4, 4, "1E-6", "0"), strip(5, 5, "0.01")
    ]
    epoch = "%s P 24:001:00000 24:007:86370 24:004:43200"
    return whole(
        block("FILE/REFERENCE", " DESCRIPTION        A centre"),
        ["* sites"],
        block("SITE/ID", " GRAZ  A 11001M002 P Graz, Austria", " WTZR  A 14201M010 P Wettzell, Germany"),
        block("SOLUTION/EPOCHS", *(epoch % it for it in (" GRAZ  A    1", " WTZR  A    1"))),
        block("SOLUTION/ESTIMATE", "*INDEX TYPE__ CODE PT SOLN", *estimates),
        block("SOLUTION/APRIORI", *apriori),
        block("SOLUTION/MATRIX_ESTIMATE U COVA", *upper),
        block("SOLUTION/MATRIX_APRIORI L INFO", strip(1, 1, "1"), strip(5, 5, "100")),
        block("SOLUTION/NORMAL_EQUATION_VECTOR", *vector),
        block(f"{NORMAL} L", *lower),
    )


def cuts_at_bytes():
    text = joined(ONE_LINES)
    for length in range(len(text)):
        yield Case(f"the first {length} bytes", text[:length])


def bytes_changed():
    text = joined(rich())
    numbers = sequence()
    letters = b"0123456789 .:+-EDU*%\n\r\t\x00\x7f\xffA1 "
    for k in range(600):
        at, byte = next(numbers) % len(text), letters[next(numbers) % len(letters) :][:1]
        yield Case(f"byte {at} is {byte!r} ({k})", text[:at] + byte + text[at + 1 :])
    for k in range(150):
        at = next(numbers) % len(text)
        yield Case(f"byte {at} is left out ({k})", text[:at] + text[at + 1 :])
    for k in range(150):
        at, byte = next(numbers) % len(text), letters[next(numbers) % len(letters) :][:1]
        yield Case(f"{byte!r} before byte {at} ({k})", text[:at] + byte + text[at:])


def lines_changed():
    lines = rich()
    for k in range(len(lines)):
        yield Case(f"without line {k + 1}", joined(lines[:k] + lines[k + 1 :]))
        yield Case(f"line {k + 1} twice", joined(lines[: k + 1] + lines[k:]))
        yield Case(f"line {k + 1} after the next", joined(lines[:k] + lines[k + 1 : k + 2] + [lines[k]] + lines[k + 2 :]))
        yield Case(f"cut after line {k + 1} of the greater document", joined(lines[: k + 1]))
    numbers = sequence()
    for k in range(100):
        a, b = sorted((next(numbers) % len(lines), next(numbers) % len(lines)))
        yield Case(f"lines {a + 1} and {b + 1} change places ({k})", joined(changed(lines, {a + 1: lines[b], b + 1: lines[a]})))


def bytes_of_rows():
    """Each column of each kind of row with another byte."""
    lines = rich()
    numbers = sequence()
    letters = "0 19.:-+E\t\x1f\x7fU"
    for number in [k + 1 for k, line in enumerate(lines) if line.startswith((" GRAZ", "     4 STAY"))] + [
        lines.index(strip(3, 1, "150000", "-2E4", "610000")) + 1,
    ]:
        for column in range(1, len(lines[number - 1]) + 2):
            byte = letters[next(numbers) % len(letters)]
            yield Case(
                f"{byte!r} in column {column} of line {number}", joined(changed(lines, {number: put(lines[number - 1], column, byte)}))
            )


def dense():
    """The files of bench/make_file.py: as many rows in four forms have one report."""
    for rows in (1, 2, 6, 20):
        report = combine.solved("in", make_file.single(rows).encode())[1]
        for values in (1, 3):
            for triangle in ("L", "U"):
                yield Case(f"{rows} rows, {values} values a line, {triangle}", make_file.single(rows, values, triangle).encode(), report)


def examples():
    for path in sorted(EXAMPLES.glob("*.snx")):
        yield Case(path.name, path.read_bytes())


def many_rows():
    names = [{"kind": "STAX", "code": f"{k:04}"} for k in range(1001)]
    yield network("1,001 rows", names, "in:1003 TooMany")
    yield network("1,000 rows", names[:1000])
    twice = names[:1000] + [names[3]]
    yield network("1,000 rows and one twice", twice, "in:1003 Repeated")
