"""Builders of SINEX documents for tools/documents.py: a small document whose lines are replaced, and texts put into columns."""

from dataclasses import dataclass
from functools import cached_property
from pathlib import Path

import combine

EXAMPLES = Path(__file__).resolve().parent.parent / "examples"
ONE_LINES = (EXAMPLES / "one-station.snx").read_text().splitlines()
ONE_REPORT = """SNXCOMB BOUNDS 1
CERT g=40 B=1 M=0 N=1
     1 STAX   ABCD  A    1 24:001:00000 m    1.5000000000000000 1.5000000000000000 0E-29
END
"""
ONE_NAME = "STAX/ABCD/A/1/24:001:00000"
NORMAL = "SOLUTION/NORMAL_EQUATION_MATRIX"


@dataclass
class Case:
    what: str
    text: bytes
    # a report, or the text of a refusal after 'snxcomb: '; or nothing, where tools/combine.py alone says what comes
    wants: str | None = None

    @cached_property
    def answer(self):
        """The status, and the report or the line said, by tools/combine.py."""
        return combine.solved("in", self.text)

    def is_as_wanted(self):
        said = self.answer[1]
        return self.wants is None or said == self.wants or said == f"snxcomb: {self.wants}\n"


# ---- builders. Texts are of one byte for each letter


def joined(lines, end="\n"):
    return "".join(line + end for line in lines).encode("latin-1")


def put(line, first, text):
    """The line with a text in its columns from first on."""
    line = line.ljust(first - 1)
    return line[: first - 1] + text + line[first - 1 + len(text) :]


def changed(lines, changes):
    """The lines with others, a text or a list of texts, in the place of those of some numbers."""
    for number in sorted(changes, reverse=True):
        new = changes[number]
        lines = lines[: number - 1] + ([new] if isinstance(new, str) else new) + lines[number:]
    return lines


def after(lines, number, *new):
    return lines[:number] + list(new) + lines[number:]


def row(number, kind, code, value, point="A", solution="1", epoch="24:001:00000", unit="m", deviation=".000000E+00"):
    assert len(value) <= 21
    label = f"{number:6} {kind:6} {code:4} {point:>2} {solution:>4} {epoch:12} {unit:4} 2"
    return f"{label} {value:>21} {deviation:>11}".rstrip()


def bare(*what, **more):
    """A row of the vector: it has no deviation."""
    return row(*what, **more, deviation="")


def strip(number, first, *values):
    """A line of a matrix."""
    assert all(len(value) <= 21 for value in values)
    return f"{number:6}{first:6}" + "".join(f" {value:>21}" for value in values)


def block(title, *lines):
    return [f"+{title}", *lines, f"-{title.partition(chr(32))[0]}"]


def whole(*blocks):
    return [ONE_LINES[0], *(line for it in blocks for line in it), "%ENDSNX"]


# the document of one row: its lines are 2 to 4 the a priori value, 5 to 7 the vector, 8 to 10 the matrix, 11 the footer


def one(what, changes, wants=ONE_REPORT):
    return Case(what, joined(changed(ONE_LINES, changes)), wants)


def one_put(what, number, first, text, wants=ONE_REPORT):
    return one(what, {number: put(ONE_LINES[number - 1], first, text)}, wants)


def one_value(what, number, value, wants=ONE_REPORT):
    """One row with another value at its line: of 21 columns in a row, of the first value in the matrix."""
    assert len(value) <= 21
    return one_put(what, number, 14 if number == 9 else 48, f"{value:>21}", wants)


# two rows: 2 to 5 the a priori values, 6 to 9 the vector, 10 to 13 the matrix, 14 the footer
PAIR_APRIORI = block("SOLUTION/APRIORI", row(1, "STAX", "ABCD", "1"), row(2, "STAY", "ABCD", "2"))
PAIR_VECTOR = block("SOLUTION/NORMAL_EQUATION_VECTOR", bare(1, "STAX", "ABCD", "2"), bare(2, "STAY", "ABCD", "1"))
PAIR_MATRIX = block(f"{NORMAL} L", strip(1, 1, "4"), strip(2, 1, "1", "5"))
PAIR_LINES = whole(PAIR_APRIORI, PAIR_VECTOR, PAIR_MATRIX)
PAIR_REPORT = combine.solved("in", joined(PAIR_LINES))[1]


def pair(what, changes, wants):
    return Case(what, joined(changed(PAIR_LINES, changes)), wants)


def pair_put(what, number, first, text, wants):
    return pair(what, {number: put(PAIR_LINES[number - 1], first, text)}, wants)


def pair_matrix(what, title, lines, wants=PAIR_REPORT):
    """Two rows with another matrix: its title is line 10, its first line 11."""
    return Case(what, joined(whole(PAIR_APRIORI, PAIR_VECTOR, block(f"{NORMAL} {title}".rstrip(), *lines))), wants)


def gap(what, numbers, lines, wants=PAIR_REPORT, triangle="L"):
    """Two rows with other indices."""
    first, second = numbers
    rows = row(first, "STAX", "ABCD", "1"), row(second, "STAY", "ABCD", "2")
    vector = bare(first, "STAX", "ABCD", "2"), bare(second, "STAY", "ABCD", "1")
    blocks = block("SOLUTION/APRIORI", *rows), block("SOLUTION/NORMAL_EQUATION_VECTOR", *vector), block(f"{NORMAL} {triangle}", *lines)
    return Case(what, joined(whole(*blocks)), wants)


def lead(what, lines, wants=ONE_REPORT):
    """The document of one row with lines after its header, so that the first of them is line 2."""
    return Case(what, joined(after(ONE_LINES, 1, *lines)), wants)


def network(what, names, wants=None, vector="1", apriori="1", diagonal="4", **more):
    """Rows of these names, each a dictionary of the words of `row`, with a diagonal matrix."""
    first = [row(k, value=apriori, **name) for k, name in enumerate(names, 1)]
    second = [bare(k, value=vector, **name) for k, name in enumerate(names, 1)]
    third = [strip(k, k, diagonal) for k in range(1, len(names) + 1)]
    blocks = block("SOLUTION/APRIORI", *first), block("SOLUTION/NORMAL_EQUATION_VECTOR", *second), block(f"{NORMAL} L", *third)
    return Case(what, joined(whole(*blocks)), wants)
