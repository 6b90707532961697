#!/usr/bin/env python3
"""Reads SINEX documents as `snxcomb solve` reads them, apart from the program.

    sinex.py FILE    says what stands in the blocks of a file, or its first bad line with the cause

It is written from the rules, not from the program's code. `read_document` gives the blocks that are read, or raises a
LineFault: the least bad line, and of several faults on one line the first in the order of the rules.
"""

import datetime
import re
import sys
from fractions import Fraction
from typing import NamedTuple

BLANKS = b" \t"
MOST_ROWS = 1000
MOST_VALUE = 10**12

ESTIMATE = b"SOLUTION/ESTIMATE"
APRIORI = b"SOLUTION/APRIORI"
VECTOR = b"SOLUTION/NORMAL_EQUATION_VECTOR"
NORMAL_MATRIX = b"SOLUTION/NORMAL_EQUATION_MATRIX"
ESTIMATE_MATRIX = b"SOLUTION/MATRIX_ESTIMATE"
APRIORI_MATRIX = b"SOLUTION/MATRIX_APRIORI"
SITES = b"SITE/ID"
EPOCHS = b"SOLUTION/EPOCHS"

# the block of rows to which each matrix belongs
ROWS_OF = {NORMAL_MATRIX: VECTOR, ESTIMATE_MATRIX: ESTIMATE, APRIORI_MATRIX: APRIORI}


class LineFault(Exception):
    """A line of the document is bad: its number, from 1, and the cause."""

    def __init__(self, line, cause):
        super().__init__(line, cause)
        self.line, self.cause = line, cause


class Bad(Exception):
    """The line at hand is bad; its cause."""


def demand(holds, cause):
    if not holds:
        raise Bad(cause)


# ---- lines


def lines_of(text):
    """The lines of a text. Each ends by LF or CR LF, the last one perhaps by nothing, and is cut at column 80."""
    *ended, last = text.split(b"\n")
    lines = [line[:-1] if line.endswith(b"\r") else line for line in ended]
    if last:
        lines.append(last)
    return [line[:80] for line in lines]


def field(line, first, last):
    """The columns from first to last, counted from 1, without blanks at both ends."""
    return line[first - 1 : last].strip(BLANKS)


def words(line):
    return re.findall(rb"[^ \t]+", line)


def name_of(line):
    """What follows the first byte of a title or an end line, up to the first blank."""
    return re.match(rb"[^ \t]*", line[1:])[0]


# ---- what stands in the columns

NUMERAL = re.compile(rb"([+-]?)(\d*)\.?(\d*)(?:[EeDd]([+-]?\d+)|([+-]\d+))?")
MOMENT = re.compile(rb"(\d\d):(\d\d\d):(\d\d\d\d\d)")
START = datetime.date(1970, 1, 1).toordinal()
# stands before all moments, which are pairs of a day from 1970-01-01 and a second
NEVER = ()


def decimal(text):
    """The number that a text writes, as a fraction."""
    m = NUMERAL.fullmatch(text.strip(BLANKS))
    demand(m, "Number")
    sign, whole, fraction, marked, bare = m.groups()
    digits = whole + fraction
    demand(digits and len(digits.strip(b"0")) <= 18, "Number")
    written = int(marked or bare or b"0")
    demand(abs(written) <= 999, "Number")
    power = written - len(fraction)
    value = Fraction(int(digits)) * Fraction(10) ** power
    if value:
        demand(-400 <= power + len(digits) - len(digits.rstrip(b"0")) <= 60, "Number")
    return -value if sign == b"-" else value


def moment(text):
    """The day and the second that a text writes, or NEVER."""
    text = text.strip(BLANKS)
    if text in (b"", b"00:000:00000"):
        return NEVER
    m = MOMENT.fullmatch(text)
    demand(m, "Epoch")
    year, day, second = (int(part) for part in m.groups())
    year += 2000 if year <= 50 else 1900
    new_year = datetime.date(year, 1, 1).toordinal()
    demand(1 <= day <= datetime.date(year + 1, 1, 1).toordinal() - new_year, "Epoch")
    demand(second <= 86400, "Epoch")
    if second == 86400:
        demand((year, day) != (2050, 365), "Epoch")
        day, second = day + 1, 0
    return new_year - START + day - 1, second


def moment_text(at):
    if at == NEVER:
        return b"00:000:00000"
    date = datetime.date.fromordinal(at[0] + START)
    return b"%02d:%03d:%05d" % (date.year % 100, date.timetuple().tm_yday, at[1])


def index(text):
    """The number of one to five digits that a text writes, at least 1."""
    demand(re.fullmatch(rb"\d{1,5}", text) and int(text) > 0, "Index")
    return int(text)


def letters(text, width):
    """A text of printable bytes, padded with blanks."""
    demand(all(32 <= byte <= 126 for byte in text), "Field")
    return text.ljust(width)


def solution(text):
    """A solution; one of digits alone has no leading zeros."""
    return letters(b"%d" % int(text) if re.fullmatch(rb"\d+", text) else text, 4)


class Name(NamedTuple):
    kind: bytes
    code: bytes
    point: bytes
    solution: bytes
    epoch: tuple

    def text(self):
        return b"/".join([*(part.strip() for part in self[:4]), moment_text(self.epoch)]).decode()


def name(line):
    """The name in columns 8 to 39 of a row."""
    kind = field(line, 8, 13)
    demand(kind, "Field")
    code, point, called = letters(field(line, 15, 18), 4), letters(field(line, 20, 21), 2), solution(field(line, 23, 26))
    return Name(letters(kind, 6), code, point, called, moment(field(line, 28, 39)))


# ---- blocks: each takes its lines one after another


class Row(NamedTuple):
    index: int
    name: Name
    unit: bytes
    value: Fraction
    deviation: Fraction | None


class Rows:
    """Rows with one parameter each, in the order of the document."""

    def __init__(self, title):
        self.block = name_of(title)
        self.rows = []
        self.by_index = {}
        self.by_name = {}

    def take(self, line):
        row = self.read(line)
        demand(row.index not in self.by_index and row.name not in self.by_name, "Repeated")
        demand(len(self.rows) < MOST_ROWS, "TooMany")
        self.rows.append(row)
        self.by_index[row.index] = self.by_name[row.name] = row

    def read(self, line):
        number = index(field(line, 2, 6))
        called = name(line)
        unit = letters(field(line, 41, 44), 4)
        value = decimal(field(line, 48, 68))
        if self.block == VECTOR:
            return Row(number, called, unit, value, None)
        demand(abs(value) <= MOST_VALUE, "Size")
        deviation = field(line, 70, 80)
        deviation = decimal(deviation) if deviation else None
        demand(deviation is None or deviation >= 0, "Number")
        return Row(number, called, unit, value, deviation)


class Matrix:
    """The elements of a matrix that aren't zero, each once, by the names of its row and its column."""

    def __init__(self, title, document):
        block, *more = name_of(title), *words(title)[1:]
        demand(ROWS_OF[block] in document, "MissingBlock")
        demand(len(more) == (1 if block == NORMAL_MATRIX else 2) and more[0] in (b"L", b"U"), "Field")
        demand(all(content in (b"COVA", b"CORR", b"INFO") for content in more[1:]), "Field")
        self.triangle, self.content = more[0], more[-1]
        self.by_index = document[ROWS_OF[block]].by_index
        self.elements = {}

    def take(self, line):
        row, column = index(field(line, 2, 6)), index(field(line, 8, 12))
        demand(row in self.by_index and column in self.by_index, "Index")
        for k, text in enumerate((field(line, 14, 34), field(line, 36, 56), field(line, 58, 78))):
            if text:
                self.put(row, column + k, decimal(text))

    def put(self, row, column, value):
        if value == 0:
            return
        demand(column in self.by_index, "Index")
        demand(row >= column if self.triangle == b"L" else row <= column, "Triangle")
        a, b = self.by_index[row].name, self.by_index[column].name
        demand((a, b) not in self.elements, "Repeated")
        self.elements[a, b] = self.elements[b, a] = value


class Sites:
    def __init__(self):
        self.rows = []

    def take(self, line):
        code, point = letters(field(line, 2, 5), 4), letters(field(line, 7, 8), 2)
        self.rows.append((code, point, line.rstrip(BLANKS)))


class Epochs:
    def __init__(self):
        self.rows = []

    def take(self, line):
        code, point, called = letters(field(line, 2, 5), 4), letters(field(line, 7, 8), 2), solution(field(line, 10, 13))
        technique = letters(field(line, 15, 15), 1)
        self.rows.append((code, point, called, technique, *(moment(field(line, first, first + 11)) for first in (17, 30, 43))))


class Passed:
    """A block that isn't read."""

    def take(self, line):
        pass


def block_of(title, document):
    """The block that a title opens."""
    block = name_of(title)
    demand(block not in document, "Repeated")
    if block in (ESTIMATE, APRIORI, VECTOR):
        return Rows(title)
    if block in ROWS_OF:
        return Matrix(title, document)
    return {SITES: Sites, EPOCHS: Epochs}.get(block, Passed)()


# ---- documents


class Reading:
    """The blocks that have ended, of those that are read; the open one and its name; and whether the footer stood."""

    def __init__(self):
        self.document = {}
        self.called = self.block = None
        self.footer = False

    def header(self, line):
        demand(line.startswith(b"%=SNX"), "NoHeader")
        demand(line[6:10] in (b"2.00", b"2.01", b"2.02"), "Version")

    def take(self, line):
        if not line.strip(BLANKS):
            return
        demand(not self.footer, "AfterFooter")
        mark = line[:1]
        demand(mark in (b"%", b"*", b"+", b"-", b" ", b"\t"), "FirstColumn")
        if mark == b"%":
            demand(line.startswith(b"%ENDSNX"), "FirstColumn")
            demand(self.block is None, "NoEnd")
            self.footer = True
        elif mark == b"+":
            demand(self.block is None, "Nested")
            self.block, self.called = block_of(line, self.document), name_of(line)
        elif mark == b"-":
            demand(self.block is not None and self.called == name_of(line), "WrongEnd")
            if not isinstance(self.block, Passed):
                self.document[self.called] = self.block
            self.block = None
        elif mark != b"*":
            demand(self.block is not None, "FirstColumn")
            self.block.take(line)

    def end(self):
        demand(self.block is None, "NoEnd")
        demand(self.footer, "NoFooter")


def read_document(text):
    """The blocks that are read, by their names."""
    lines = lines_of(text)
    reading, number = Reading(), 1
    try:
        reading.header(lines[0] if lines else b"")
        for number, line in enumerate(lines[1:], 2):
            reading.take(line)
        number = len(lines) + 1
        reading.end()
    except Bad as bad:
        raise LineFault(number, *bad.args) from None
    return reading.document


if __name__ == "__main__":
    with open(sys.argv[1], "rb") as file:
        try:
            for block, content in read_document(file.read()).items():
                count = len(content.elements) if isinstance(content, Matrix) else len(content.rows)
                print(f"{block.decode()}: {count} {'elements, both triangles' if isinstance(content, Matrix) else 'rows'}")
        except LineFault as fault:
            print(f"{sys.argv[1]}:{fault.line} {fault.cause}")
