#!/usr/bin/env python3
"""Combinations with the answers of `snxcomb combine` to them.

    combinations.py               checks that tools/combine.py answers each as its row says
    combinations.py NAME FOLDER   writes the files of the combination of this name into a folder

What a run wants is the text of its refusal after 'snxcomb: ', or its report, worked by hand; or nothing, and then
tools/combine.py alone says what comes. The bounds of each report of a few lines must hold the solution of the exact system, which
tools/exact.py has in fractions, and each combined file of a few rows must be that system rounded; those of the group 'combined files'
were worked by hand too, but for the examples. tools/check_program.py runs the built program over all of them.
"""

import difflib
import math
import random
import sys
from dataclasses import dataclass, field
from fractions import Fraction
from functools import cached_property
from pathlib import Path
from unittest import mock

import combine
import control_files
import covariances as made_covariances
import exact
import solve
from document_builders import EXAMPLES, NORMAL, ONE_NAME, bare, block, changed, joined, row, strip, whole
from made_documents import make_file

WORDS = ["combine", "control", "out", "report"]
# reports of at most so many lines are compared with the exact solution
MOST_EXACT = 40
HEADER = '[output]\nagency = "XYZ"\ncreated = "24:002:00000"\n'


@dataclass
class Run:
    what: str
    files: dict
    wants: str | None = None
    words: list = field(default_factory=lambda: WORDS)
    # the combined file that is wanted, if it was worked by hand
    file: str | None = None

    @cached_property
    def answer(self):
        """The status, the line said, and the texts written by name, by tools/combine.py."""
        return combine.verdict(self.words, self.files)

    def is_as_wanted(self):
        _, line, made = self.answer
        if self.wants is not None and self.wants != made.get("report") and line != f"snxcomb: {self.wants}\n":
            return False
        if self.file is not None and self.file != made.get("out"):
            return False
        if not made or made[self.words[-1]].count("\n") > MOST_EXACT:
            return True
        return exact.holds(self.files, self.words, made[self.words[-1]]) and (len(made) == 1 or exact.is_file(self.files, self.words, made))


# ---- builders


def entry(name, **more):
    """The table of a file in the control file."""
    return "[[file]]\n" + "".join(f'{key} = "{value}"\n' for key, value in {"name": name, **more}.items())


def control(*entries, head=HEADER, rest=""):
    return (head + "".join(entries) + rest).encode()


def numbered(names):
    """A number for each name: a row's index."""
    return {name: k for k, name in enumerate(names, 1)}


def neq(apriori, vector, matrix, unit="m"):
    """The text of normal equations: a priori values and right sides by name, matrix elements by pairs of names.

    A name is a dictionary of the words of `row`, as a tuple of pairs.
    """
    index, known = numbered(vector), numbered(apriori)
    first = [row(known[name], value=value, unit=unit, **dict(name)) for name, value in apriori.items()]
    second = [bare(index[name], value=value, unit=unit, **dict(name)) for name, value in vector.items()]
    third = [strip(max(index[a], index[b]), min(index[a], index[b]), value) for (a, b), value in matrix.items()]
    return joined(whole(block("SOLUTION/APRIORI", *first), block("SOLUTION/NORMAL_EQUATION_VECTOR", *second), block(f"{NORMAL} L", *third)))


def named(kind="STAX", code="ABCD", **more):
    return tuple({"kind": kind, "code": code, **more}.items())


STAX, STAY, STAZ = named(), named("STAY"), named("STAZ")


def one(matrix, vector, apriori="1", name=STAX, **more):
    return neq({name: apriori}, {name: vector}, {(name, name): matrix}, **more)


THREE = {"a": one("4", "2"), "b": one("3", "1"), "c": one("1", "0")}


def report_of(lower, upper, residual="0E-29", certificate="g=40 B=1 M=0 N=1"):
    row = f"     1 STAX   ABCD  A    1 24:001:00000 m    {lower} {upper} {residual}"
    return f"SNXCOMB BOUNDS 1\nCERT {certificate}\n{row}\nEND\n"


THREE_REPORT = report_of("1.3750000000000000", "1.3750000000000000")


def three(what, text, wants=THREE_REPORT, **more):
    return Run(what, {**THREE, "control": text, **more}, wants)


# ---- one parameter in three files


def orders():
    for order in ("abc", "acb", "bac", "bca", "cab", "cba"):
        yield three(f"the files as {order}", control(*map(entry, order)))
    yield three("a group of two and one", control(entry("a", group="g"), entry("b", group="g"), entry("c")))
    yield three("a group of the second and the third", control(entry("c", group="g"), entry("b", group="g"), entry("a")))
    yield three("one group", control(*(entry(name, group="all") for name in "bca")))
    yield three("a group with the name of a file", control(entry("a", group="c"), entry("b", group="c"), entry("c")))
    for workers in (1, 4, 16):
        yield three(f"{workers} workers", control(*map(entry, "abc"), rest=f"[run]\nworkers = {workers}\n"))
    yield three("a reference", control(*map(entry, "abc"), rest='[run]\nreference = "b"\n'))
    yield three("halved weights", control(*(entry(name, weight="0.5") for name in "abc")))
    yield three("weights written otherwise", control(entry("a", weight="1E+00"), entry("b", weight=".1D1"), entry("c", weight=" 1. ")))
    yield three("a weight of three", control(entry("a", weight="3"), entry("b"), entry("c")), None)
    yield three("weights of nine digits", control(entry("a", weight=".123456789"), entry("b", weight="987654321"), entry("c", weight="1e-9")), None)
    yield three("forms of normal equations", control(entry("a", form="neq"), entry("b", form="auto"), entry("c", form="neq", constraints="sigma")))
    yield three("a scale of the type", control(*map(entry, "abc"), rest="[scale]\nSTAX = 3\n"))
    yield three("a negative scale of the type", control(*map(entry, "abc"), rest="[scale]\nSTAX = -4\n"))
    yield three("two of the files", control(entry("a"), entry("c")), report_of("1.4000000000000000", "1.4000000000000000"))
    yield three("a file that is listed nowhere is not read", control(entry("a"), entry("b"), entry("c")), d=b"x")


# ---- refusals


def refusals():
    yield Run("no control file", THREE, "no file control")
    yield Run("the control file is too long", {**THREE, "control": b"#" * (2**20 + 1)}, "too long control")
    yield three("the control file is as long as it may be", control(*map(entry, "abc"), rest="#" * (2**20 - len(control(*map(entry, "abc"))))))
    for name in ("control", "out", "report"):
        yield three(f"a listed file is also {name}", control(entry("a"), entry(name)), f"control samename {name}")
    yield three("two listed files are outputs", control(entry("report"), entry("out")), "control samename report")
    yield three("a fault before one name for two", control(entry("a"), entry("out"), rest="x = 1\n"), "control key file.1.x")
    yield three("a reduction", control(*map(entry, "abc"), rest='[[reduce]]\nat = "end"\nparam = ["STAX", "ABCD", "A", "1", "24:001:00000"]\n'), "unbuilt control")
    yield three("one name for two before a reduction", control(entry("out"), rest='[[reduce]]\nat = "end"\nparam = ["STAX", "ABCD", "A", "1", "24:001:00000"]\n'), "control samename out")
    yield three("a file isn't there", control(entry("a"), entry("d")), "no file d")
    yield three("the first by name isn't there", control(entry("e"), entry("d")), "no file d")
    yield three("a bad line before a file that isn't there", control(entry("d"), entry("c")), "c:2 WrongEnd", c=b"%=SNX 2.02\n-X\n")
    yield three("a bad line after a file that isn't there", control(entry("c"), entry("b2")), "no file b2", c=b"%=SNX 2.02\n-X\n")
    yield three("a file without a priori values", control(*map(entry, "abc")), "block file:b SOLUTION/APRIORI", b=joined(whole()))
    yield three("a file without a right side", control(*map(entry, "abc")), "block file:b SOLUTION/ESTIMATE", b=joined(whole(block("SOLUTION/APRIORI", row(1, "STAX", "ABCD", "1")))))
    bare_apriori = joined(whole(block("SOLUTION/APRIORI", row(1, "STAX", "ABCD", "1"))))
    yield three("normal equations without a right side", control(entry("a"), entry("b", form="neq")), "block file:b SOLUTION/NORMAL_EQUATION_VECTOR", b=bare_apriori)
    no_matrix = joined(whole(block("SOLUTION/APRIORI", row(1, "STAX", "ABCD", "1")), block("SOLUTION/NORMAL_EQUATION_VECTOR", bare(1, "STAX", "ABCD", "1"))))
    yield three("normal equations without a matrix", control(entry("a"), entry("b", form="neq")), f"block file:b {NORMAL}", b=no_matrix)
    yield three("a solution in place of normal equations", control(entry("a"), entry("b", form="solution")), "block file:b SOLUTION/ESTIMATE")
    yield three("a solution without a priori values", control(entry("a"), entry("b", form="solution")), "block file:b SOLUTION/APRIORI", b=joined(whole()))
    yield three("a row without its a priori value", control(*map(entry, "abc")), f"unmatched file:c STAY/ABCD/A/1/24:001:00000", c=neq({STAX: "1"}, {STAX: "1", STAY: "1"}, {(STAX, STAX): "1"}))
    yield three("a file without rows", control(*map(entry, "abc")), "empty file:b", b=joined(whole(block("SOLUTION/APRIORI", row(1, "STAX", "ABCD", "1")), block("SOLUTION/NORMAL_EQUATION_VECTOR"), block(f"{NORMAL} L"))))
    yield three("a weight takes a number past its range", control(entry("a"), entry("b", weight="1E+17")), f"range file:b {ONE_NAME} {ONE_NAME}")
    yield three("a right side past its range", control(entry("a", weight="1E+15")), f"range file:a {ONE_NAME} {ONE_NAME}", a=one(".5", "1E+2"))
    yield three("a weight past every decimal", control(entry("a", weight="9E+60")), f"range file:a {ONE_NAME} {ONE_NAME}", a=one("4E+60", "2"))
    yield three("the stack has no pivot", control(*map(entry, "abc")), f"pivot stack {ONE_NAME}", b=one("-4", "1"), c=one("0", "0"))
    yield three("the names differ by their solution", control(*map(entry, "abc")), None, b=one("3", "1", name=named(solution="2")))
    yield three("the names differ by their moment", control(*map(entry, "abc")), None, c=one("3", "1", name=named(epoch="24:001:00001")))
    for words in (["combine"], ["combine", "control", "out"], ["combine", "control", "out", "out"], ["combine", "control", "control", "report"], ["combine", "control", "out", "control"], [*WORDS, "more"], ["combined", *WORDS[1:]]):
        yield Run(f"the words {' '.join(words)}", {**THREE, "control": control(entry("a"))}, "words", words)


# ---- common a priori values

MOVED = {"a": one("4", "2"), "b": one("4", "2", "1.3")}
MOVED_REPORT = report_of("1.6500000000000000", "1.6500000000000000")
BOTH = f"{ONE_NAME} {ONE_NAME}"


def pair(what, wants=None, rest="", **files):
    """Files in the order of their names."""
    return Run(what, {**files, "control": control(*map(entry, sorted(files)), rest=rest)}, wants)


def values():
    yield pair("the values of the first file by name", MOVED_REPORT, **MOVED)
    yield Run("the values of the first file by name, listed last", {**MOVED, "control": control(entry("b"), entry("a"))}, MOVED_REPORT)
    yield pair("the values of the reference", MOVED_REPORT, '[run]\nreference = "b"\n', **MOVED)
    yield pair("a reference that is not listed", "control value run.reference", '[run]\nreference = "c"\n', **MOVED)
    yield pair("the values of a reference that adds nothing", MOVED_REPORT, '[run]\nreference = "c"\n', **MOVED, c=one("0", "0", "1.6"))
    yield three("the value written otherwise", control(*map(entry, "abc")), THREE_REPORT, b=one("3", "1", "0.1D+01"))
    yield pair("values written otherwise", report_of("1.5000000000000000", "1.5000000000000000"), a=one("4", "2", "0.1D+01"), b=one("4", "2", "1.0E0"))
    yield pair("two units", f"unit {ONE_NAME}", a=one("4", "2"), b=one("4", "2", unit="mm"))
    two = {STAX: "1", STAY: "1"}
    diagonal = {(STAX, STAX): "4", (STAY, STAY): "4"}
    yield pair("two units, the least name", f"unit {ONE_NAME}", a=neq(two, two, diagonal), b=neq({STAY: "1", STAX: "1"}, two, diagonal, unit="mm"))
    yield pair("two units of a row without a right side", "unit STAY/ABCD/A/1/24:001:00000", a=one("4", "2"), b=neq(two, {STAX: "2"}, {(STAX, STAX): "4"}), c=neq({STAY: "1"}, {STAY: "1"}, {(STAY, STAY): "1"}, unit="mm"))
    yield pair("two units before a block that is missing", f"unit {ONE_NAME}", a=joined(whole(block("SOLUTION/APRIORI", row(1, "STAX", "ABCD", "1")))), b=one("4", "2", unit="mm"))
    yield pair("a bad line before two units", "b:2 WrongEnd", a=one("4", "2"), b=b"%=SNX 2.02\n-X\n", c=one("4", "2", unit="mm"))
    yield pair("the value of a row without a right side counts", None, a=neq({STAX: "1", STAY: "1.5"}, {STAX: "2"}, {(STAX, STAX): "4"}), b=neq(two, two, {**diagonal, (STAX, STAY): "-1"}))
    yield pair("three values", None, a=one("4", "2"), b=one("4", "2", "1.3"), c=one("1", "1", "-.7"))
    yield Run("a weighted file that is moved", {**MOVED, "control": control(entry("a"), entry("b", weight="0.25"))}, report_of("1.5600000000000000", "1.5600000000000000"))
    yield pair("far values", None, a=one("4", "2", "1E+12"), b=one("4", "2", "-1E+12"))
    yield pair("a value that is no decimal of 20 places", None, a=one("4E+02", "2", "1"), b=one("4E+02", "2", "1.123456789012345E-09"))
    yield pair("an element far above its diagonal", f"range file:b STAY/ABCD/A/1/24:001:00000 {ONE_NAME}", a=neq(two, two, diagonal), b=neq({STAX: "2", STAY: "1"}, two, {(STAX, STAX): "1E-13", (STAY, STAY): "1E-13", (STAX, STAY): "9"}))
    yield pair("differences too great for their matrix", f"range file:b {BOTH}", a=one("4E+15", "2", "1E+12"), b=one("4E+15", "2", "-1E+12"))
    yield pair("a product past its bound", f"range file:b {BOTH}", a=one("4E+09", "2", "5E+06"), b=one("4E+09", "2", "-5E+06"))
    yield pair("the second row passes its bound", "range file:b STAY/ABCD/A/1/24:001:00000 STAY/ABCD/A/1/24:001:00000", a=neq(two, two, diagonal), b=neq({STAX: "1", STAY: "1E+12"}, two, {(STAX, STAX): "1", (STAY, STAY): "4E+15"}))
    yield pair("nothing is tested where nothing is moved", None, a=one("4", "2"), b=neq(two, two, {(STAX, STAX): "1E-13", (STAY, STAY): "4", (STAX, STAY): "9E-03"}))
    yield pair("a right ascension is moved", None, a=one("4E+12", "2E+3", "1.25", name=named("RS_RA")), b=one("5E+12", "1E+3", "1.2500000001", name=named("RS_RA")))


# ---- datum rows

STATIONS = {"AAAA": ("4000000", "1000000", "4800000"), "BBBB": ("3000000", "2000000", "5000000"), "CCCC": ("4500000", "-1000000", "4300000")}
AXES = ("STAX", "STAY", "STAZ")


def free_network(stations=STATIONS, weight=1, left_out=(), vector=lambda name: "0", epochs=None):
    """Normal equations of differences of stations, axis by axis: 2,000,000 on the diagonal of three, -1,000,000 between two."""
    values = {named(axis, code, **(epochs or {}).get((axis, code), {})): value for code, texts in stations.items() for axis, value in zip(AXES, texts) if (axis, code) not in left_out}
    names = sorted(values)
    matrix = {}
    for k, name in enumerate(names):
        others = [other for other in names if dict(other)["kind"] == dict(name)["kind"] and other != name]
        matrix[name, name] = f"{1000000 * weight * len(others)}"
        for other in names[:k]:
            if other in others:
                matrix[name, other] = f"-{1000000 * weight}"
    return neq({name: values[name] for name in names}, {name: vector(name) for name in names}, matrix)


def datum(sites="AAAA BBBB CCCC", point="A", solution="1", **sigmas):
    lists = ", ".join(f'["{code}", "{point}", "{solution}"]' for code in sites.split())
    return f"[datum]\nsites = [{lists}]\n" + "".join(f'{key} = "{value}"\n' for key, value in sigmas.items())


ALL = {"translation": "0.001", "rotation": "0.001", "scale": "0.001"}


def held(what, rest, wants=None, **files):
    return Run(what, {**files, "control": control(*map(entry, sorted(files)), rest=rest)}, wants)


def stations_report():
    rows = sorted(((axis, code, value) for code, texts in STATIONS.items() for axis, value in zip(AXES, texts)), key=lambda it: it[:2])
    found = combine.verdict(WORDS, {"a": free_network(), "control": control(entry("a"), rest=datum(**ALL))})[2]["report"].splitlines()
    lines = [f"{k:6} {axis}   {code}  A    1 24:001:00000 m    {value}.{0:016} {value}.{0:016} 0E{line.rsplit('E', 1)[1]}" for (k, (axis, code, value)), line in zip(enumerate(rows, 1), found[2:])]
    assert " M=0 " in found[1]
    return "\n".join(["SNXCOMB BOUNDS 1", found[1], *lines, "END", ""])


def data():
    free = free_network()
    yield Run("a free network has no pivot", {"a": free}, "pivot stack STAX/CCCC/A/1/24:001:00000", ["solve", "a", "report"])
    yield held("a free network without a datum", "", "pivot stack STAX/CCCC/A/1/24:001:00000", a=free)
    yield held("a free network with all rows", datum(**ALL), stations_report(), a=free)
    yield held("a free network in two files", datum(**ALL), None, a=free, b=free_network(weight=3))
    for kind in ALL:
        yield held(f"a free network with {kind} alone", datum(**{kind: "0.001"}), None, a=free)
    yield held("one site", datum("BBBB", **ALL), None, a=free)
    yield held("two sites, listed last first", datum("CCCC AAAA", **ALL), None, a=free)
    yield held("sigmas of their own", datum(translation="0.01", rotation="2E-3", scale=".005"), None, a=free)
    yield held("a site without its height", datum(**ALL), "unmatched site AAAA/A/1", a=free_network(left_out={("STAZ", "AAAA")}))
    yield held("the first site that is not there", datum("BBBB DDDD EEEE", **ALL), "unmatched site DDDD/A/1", a=free)
    yield held("another solution", datum(solution="2", **ALL), "unmatched site AAAA/A/2", a=free)
    yield held("a solution with leading zeros", datum(solution="0001", **ALL), stations_report(), a=free)
    yield held("another point", datum(point="B", **ALL), "unmatched site AAAA/B/1", a=free)
    twice = neq({named(): "1", named(epoch="24:002:00000"): "1", STAY: "1", STAZ: "1"}, {named(): "1", named(epoch="24:002:00000"): "1", STAY: "1", STAZ: "1"}, {(name, name): "4" for name in (named(), named(epoch="24:002:00000"), STAY, STAZ)})
    yield held("a coordinate of two moments", datum("ABCD", translation="1"), "unmatched site ABCD/A/1", a=twice)
    yield held("coordinates of different moments", datum(**ALL), None, a=free_network(epochs={("STAY", "BBBB"): {"epoch": "24:002:00000"}}))
    yield held("two units before a site that is not there", datum("DDDD", **ALL), f"unit {ONE_NAME}", a=one("4", "2"), b=one("4", "2", unit="mm"))
    yield held("a missing block before a site that is not there", datum("DDDD", **ALL), "block file:b SOLUTION/APRIORI", a=free, b=joined(whole()))
    yield held("too many names before a site that is not there", datum("DDDD", **ALL), "too many stack 1001", a=many("A", 501), b=many("B", 500))
    yield held("a site that is not there before the rules", datum("DDDD", **ALL), "unmatched site DDDD/A/1", a=one("0", "0"))
    yield held("a sigma too small for translation", datum(translation="1E-9"), "range stack STAX/AAAA/A/1/24:001:00000 STAX/AAAA/A/1/24:001:00000", a=free)
    yield held("a sigma too small for rotation", datum(translation="1", rotation="1E-9"), "range stack STAY/AAAA/A/1/24:001:00000 STAY/AAAA/A/1/24:001:00000", a=free)
    yield held("a sigma too small for scale", datum(scale="1E-9"), "range stack STAX/AAAA/A/1/24:001:00000 STAX/AAAA/A/1/24:001:00000", a=free)
    yield held("the greatest sigmas", datum(translation="999999999E+60", rotation="1E+60", scale="1E+60"), "pivot stack STAX/CCCC/A/1/24:001:00000", a=free)
    yield held("sigmas that tighten nothing", datum(translation="1000", rotation="1E+5", scale="1E+5"), None, a=free)
    yield held("tight sigmas", datum(translation="1E-5", rotation="1E-5", scale="1E-5"), None, a=free)
    yield held("positions that are not whole", datum(**ALL), None, a=free_network({code: tuple(value + ".75" for value in texts) for code, texts in STATIONS.items()}))
    yield held("negative positions that are not whole", datum(**ALL), None, a=free_network({code: tuple(str(-int(value)) + ".25" for value in texts) for code, texts in STATIONS.items()}))
    moved = {code: tuple(f"{int(value) + shift}.0125" for value in texts) for shift, (code, texts) in enumerate(STATIONS.items())}
    yield held("a datum at the common values", datum(**ALL), None, a=free, b=free_network(moved, weight=2))
    yield held("a datum at the values of the reference", datum(**ALL) + '[run]\nreference = "b"\n', None, a=free, b=free_network(moved, weight=2))
    yield held("scale exponents under a datum", datum(**ALL) + "[scale]\nSTAX = 2\nSTAZ = -1\n", None, a=free)


# ---- free networks made by chance: other a priori values in each file, and a datum


def free_chances():
    rng = random.Random(20261213)
    for number in range(24):
        codes = ["GRAZ", "METS", "ONSA", "POTS", "WTZR", "ZIMM"][: rng.randint(3, 6)]
        base = {code: [rng.randint(-6 * 10**6, 6 * 10**6) for _ in AXES] for code in codes}
        files = {}
        for k in range(rng.randint(2, 4)):
            mine = sorted(rng.sample(codes, rng.randint(2, len(codes)))) if k else codes
            stations = {code: tuple(f"{v}.{rng.randint(0, 30):04}" for v in base[code]) for code in mine}
            files[f"f{k}"] = free_network(stations, rng.randint(1, 4), vector=lambda name: f"{rng.randint(-10**5, 10**5)}E-02")
        entries = []
        for name in rng.sample(list(files), len(files)):
            more = {}
            if rng.random() < 0.5:
                more["weight"] = rng.choice(["0.5", "2", "1.25", "12.3456789"])
            if rng.random() < 0.4:
                more["group"] = rng.choice(["g", "h"])
            entries.append(entry(name, **more))
        sites = rng.sample(codes, rng.randint(3, len(codes)))
        rest = datum(" ".join(sites), translation=rng.choice(["0.001", "0.005", "0.0123"]), rotation=rng.choice(["0.001", "0.01"]), scale=rng.choice(["0.002", "0.01"]))
        if rng.random() < 0.5:
            rest += f'[run]\nreference = "{rng.choice(list(files))}"\n'
        if rng.random() < 0.3:
            rest += "[scale]\nSTAX = 1\n"
        yield Run(f"a free network made by chance, {number}", {**files, "control": control(*entries, rest=rest)})


# ---- solutions and their constraints

ESTIMATE, INFORMATION, CONSTRAINTS = "SOLUTION/ESTIMATE", "SOLUTION/MATRIX_ESTIMATE", "SOLUTION/MATRIX_APRIORI"


def triangle(index, matrix, upper=False):
    """Lines of a matrix by pairs of names."""
    pairs = [(*sorted((index[a], index[b]), reverse=not upper), value) for (a, b), value in matrix.items()]
    return [strip(row, column, value) for row, column, value in pairs]


def estimated(apriori, estimates, matrix, constraints=None, deviations=None, contents=("L INFO", "L INFO"), parts=(), errors=None):
    """The text of a solution: a priori values with their deviations, estimates with theirs, the matrix of these, and that of the constraints."""
    known, index, deviations = numbered(apriori), numbered(estimates), deviations or {}
    errors = dict.fromkeys(estimates, ".125000E+00") if errors is None else errors
    first = [row(known[name], value=value, deviation=deviations.get(name, ""), **dict(name)) for name, value in apriori.items()]
    second = [row(index[name], value=value, deviation=errors[name], **dict(name)) for name, value in estimates.items()]
    blocks = [block("SOLUTION/APRIORI", *first), block(ESTIMATE, *second)]
    if matrix is not None:
        blocks.append(block(f"{INFORMATION} {contents[0]}", *triangle(index, matrix, contents[0][0] == "U")))
    if constraints is not None:
        blocks.append(block(f"{CONSTRAINTS} {contents[1]}", *triangle(known, constraints, contents[1][0] == "U")))
    return joined(whole(*blocks, *parts))


def one_estimate(matrix, estimate="1.5", apriori="1", deviation="", constraint=None, **more):
    constraints = None if constraint is None else {(STAX, STAX): constraint}
    return estimated({STAX: apriori}, {STAX: estimate}, {(STAX, STAX): matrix}, constraints, {STAX: deviation}, **more)


def solution(what, wants, text, keys=None, rest="", **more):
    """One solution alone, as file a, or with other files."""
    return Run(what, {"a": text, **more, "control": control(entry("a", **(keys or {})), *map(entry, sorted(more)), rest=rest)}, wants)


ROW_REPORT = report_of("1.5000000000000000", "1.5000000000000000")
FREED_REPORT = report_of("3.4999999999970000", "3.5000000000010000", "1000000000000000000E-30", "g=40 B=1 M=1 N=1")
SIX = [named(axis, code) for code in ("ABCD", "EFGH") for axis in AXES]
SIX_ONES = dict.fromkeys(SIX, "1")


def six_report():
    held = ("1.6666666666664000", "1.6666666666668000", "20000000000000000E-29")
    free = ("1.4999999999999000", "1.5000000000001000", "0E-29")
    names = sorted(SIX, key=lambda name: (dict(name)["kind"], dict(name)["code"]))
    lines = []
    for k, name in enumerate(names, 1):
        it = dict(name)
        numbers = held if it["code"] == "ABCD" and it["kind"] != "STAZ" else free
        lines.append(f"{k:6} {it['kind']:6} {it['code']}  A    1 24:001:00000 m    {' '.join(numbers)}")
    return "\n".join(["SNXCOMB BOUNDS 1", "CERT g=40 B=1 M=1 N=6", *lines, "END", ""])


def solutions():
    yield solution("an information matrix", ROW_REPORT, one_estimate("4"))
    yield solution("an information matrix above its diagonal", ROW_REPORT, one_estimate("4", contents=("U INFO", "L INFO")))
    yield Run("solve takes a solution", {"a": one_estimate("4")}, ROW_REPORT, ["solve", "a", "report"])
    yield solution("a constraint by its deviation", FREED_REPORT, one_estimate("5", deviation=".500000E+00"), {"constraints": "sigma"})
    yield solution("a deviation that is not removed", None, one_estimate("5", deviation=".500000E+00"))
    yield solution("a deviation of zero is no constraint", ROW_REPORT, one_estimate("4", deviation=".000000E+00"), {"constraints": "sigma"})
    yield solution("a constraint by its matrix", FREED_REPORT, one_estimate("5", constraint="4"))
    yield solution("a constraint by its matrix, asked for", FREED_REPORT, one_estimate("5", constraint="4"), {"constraints": "matrix"})
    yield solution("a constraint that stays", report_of("1.5000000000000000", "1.5000000000000000"), one_estimate("5", constraint="4"), {"constraints": "none"})
    six = estimated(SIX_ONES, dict.fromkeys(SIX, "1.5"), {(name, name): "4" for name in SIX}, {(name, name): "1" for name in SIX[:2]})
    yield solution("six parameters, two of them constrained", six_report(), six)
    both = {(STAX, STAX): "5", (STAX, STAY): "1", (STAY, STAY): "6"}
    two = {STAX: "1", STAY: "2"}
    away = {STAY: "2.25", STAX: "1.5"}
    yield solution("two estimates in another order", None, estimated(two, away, both))
    yield solution("a constraint between two", None, estimated(two, away, both, {(STAX, STAX): "1", (STAX, STAY): "-.5", (STAY, STAY): "2"}))
    yield solution("a weighted solution", None, estimated(two, away, both, {(STAX, STAX): "1", (STAX, STAY): "-.5"}), {"weight": "0.25"})
    yield solution("deviations with a weight", None, estimated(two, away, both, deviations={STAX: ".700000E+00", STAY: ".900000E+01"}), {"constraints": "sigma", "weight": "12.5"})
    yield solution("a negative constraint", None, one_estimate("5", constraint="-4"))
    yield solution("estimates that are the a priori values", None, estimated(two, two, both))
    yield solution("an a priori row without an estimate", None, estimated({**two, STAZ: "3"}, away, both))
    yield solution("an unconstrained a priori row without an estimate", None, estimated({STAZ: "3", **two}, away, both, {(STAY, STAY): "2"}))
    yield solution("a far estimate", None, one_estimate("4", "-1E+12", "1E+12"))
    yield solution("scale exponents", None, estimated(two, away, both, {(STAX, STAY): "-.5"}), rest="[scale]\nSTAX = 3\nSTAY = -2\n")
    given = estimated({STAX: "1"}, {STAX: "7"}, {(STAX, STAX): "9"}, parts=(block("SOLUTION/NORMAL_EQUATION_VECTOR", bare(1, "STAX", "ABCD", "2")), block(f"{NORMAL} L", strip(1, 1, "4"))))
    yield solution("normal equations before a solution", ROW_REPORT, given)
    yield solution("a solution beside normal equations", None, given, {"form": "solution"})
    yield solution("normal equations keep their constraints", ROW_REPORT, given, {"form": "neq", "constraints": "matrix"})
    yield solution("a solution and normal equations", None, one_estimate("5", constraint="4"), b=one("4", "2"), c=one("3", "1", "1.3"))
    yield solution("two solutions at other a priori values", None, one_estimate("5", constraint="4"), b=one_estimate("3", "1.75", "1.3"), rest='[run]\nreference = "b"\n')
    free = estimated({name: v for code, texts in STATIONS.items() for name, v in zip((named(axis, code) for axis in AXES), texts)}, {name: v + ".0125" for code, texts in STATIONS.items() for name, v in zip((named(axis, code) for axis in AXES), texts)}, {(name, name): "1000001" for name in (named(axis, code) for code in STATIONS for axis in AXES)}, {(name, name): "1000000" for name in (named(axis, code) for code in STATIONS for axis in AXES)})
    yield solution("a loose solution with a free network and a datum", None, free, b=free_network(), rest=datum(**ALL))


# ---- solutions that are refused


def refused_solutions():
    two = {STAX: "1", STAY: "2"}
    both = {(STAX, STAX): "5", (STAX, STAY): "1", (STAY, STAY): "6"}
    stay = "STAY/ABCD/A/1/24:001:00000"
    yield solution("no estimates", "block file:a SOLUTION/ESTIMATE", one("4", "2"), {"form": "solution"})
    yield solution("no matrix of the estimates", "block file:a SOLUTION/MATRIX_ESTIMATE", estimated(two, two, None, {}))
    yield solution("no matrix of the constraints", "block file:a SOLUTION/MATRIX_APRIORI", estimated(two, two, both), {"constraints": "matrix"})
    yield solution("no matrix of the estimates, nor of the constraints", "block file:a SOLUTION/MATRIX_ESTIMATE", estimated(two, two, None), {"constraints": "matrix"})
    for content in ("COVA", "CORR"):
        yield solution(f"{content} of constraints that stay", None, estimated(two, two, both, {}, contents=("L INFO", f"L {content}")), {"constraints": "none"})
        yield solution(f"{content} of no constraint", None, estimated(two, two, both, {}, contents=("L INFO", f"L {content}")))
        yield solution(f"{content} of the estimates without the constraints", "block file:a SOLUTION/MATRIX_APRIORI", estimated(two, two, both, contents=(f"L {content}", "")), {"constraints": "matrix"})
        yield solution(f"an unmatched row before {content}", f"unmatched file:a {stay}", estimated({STAX: "1"}, two, {}, contents=(f"L {content}", "")))
        yield solution(f"no row before {content}", "empty file:a", estimated(two, {}, {}, contents=(f"L {content}", "")))
    yield solution("an estimate without an a priori value", f"unmatched file:a {stay}", estimated({STAX: "1"}, two, both))
    yield solution("the first of two estimates", f"unmatched file:a {stay}", estimated({STAZ: "1"}, {STAY: "1", STAX: "2"}, {}))
    yield solution("a constrained row without an estimate", f"unmatched file:a {stay}", estimated(two, {STAX: "1"}, {(STAX, STAX): "5"}, {(STAX, STAY): "1"}))
    yield solution("a row with a deviation without an estimate", f"unmatched file:a {stay}", estimated(two, {STAX: "1"}, {(STAX, STAX): "5"}, deviations={STAY: ".100000E+01"}), {"constraints": "sigma"})
    yield solution("an estimate before a constrained row", "unmatched file:a STAZ/ABCD/A/1/24:001:00000", estimated(two, {STAZ: "1"}, {}, {(STAY, STAY): "1"}))
    yield solution("the first constrained row", f"unmatched file:a {stay}", estimated({STAY: "1", STAX: "2", STAZ: "3"}, {STAZ: "1"}, {}, {(STAX, STAY): "1"}))
    yield solution("constraints without an estimate at all", f"unmatched file:a {ONE_NAME}", estimated({STAX: "1"}, {}, {}, {(STAX, STAX): "1"}))
    yield solution("no estimate", "empty file:a", estimated(two, {}, {}))
    yield solution("an information matrix past its range", f"range file:a {BOTH}", one_estimate("4"), {"weight": "1E+17"})
    yield solution("a constraint past its range", f"range file:a {BOTH}", one_estimate(".5", constraint="1E+17"))
    yield solution("a deviation too small", f"range file:a {BOTH}", one_estimate(".5", deviation="1E-11"), {"constraints": "sigma"})
    yield solution("a deviation too small for any word", f"range file:a {BOTH}", one_estimate(".5", deviation="1E-99"), {"constraints": "sigma"})
    yield solution("a deviation and a weight", f"range file:a {BOTH}", one_estimate("5E-11", deviation="1E-7"), {"constraints": "sigma", "weight": "1E+10"})
    yield solution("digits of a weight before its tens", f"range file:a {BOTH}", one_estimate("5", deviation="1E-9"), {"constraints": "sigma", "weight": "1.23456789E-2"})
    yield solution("the information matrix before the constraints", f"range file:a {stay} {stay}", estimated(two, two, {(STAY, STAY): "1E+17"}, {(STAX, STAX): "1E+17"}))
    yield solution("the constraints before the right side", f"range file:a {stay} {stay}", estimated({STAX: "1E+12", STAY: "1"}, {STAX: "-1E+12", STAY: "1"}, {(STAX, STAX): "4E+15", (STAY, STAY): "1"}, {(STAY, STAY): "1E+17"}))
    yield solution("a right side past its range", f"range file:a {BOTH}", estimated({STAX: "1E+12", STAY: "1"}, {STAX: "-1E+12", STAY: "1"}, {(STAX, STAX): "4E+15", (STAY, STAY): "1"}))
    yield solution("a right side whose product is past its range", f"range file:a {BOTH}", one_estimate("4E+09", "5E+06", "-5E+06"))
    yield solution("constraints that leave nothing", f"pivot stack {ONE_NAME}", one_estimate("4", constraint="4"))


# ---- covariances and correlations

COVA, CORR, INFO = ("L COVA", "L COVA"), ("L CORR", "L CORR"), ("L INFO", "L INFO")
TWO = {STAX: "1", STAY: "2"}
NEAR = {STAX: "1.5", STAY: "2.25"}
STAY_NAME = "STAY/ABCD/A/1/24:001:00000"


def two_names(xx, xy, yy):
    return {(STAX, STAX): xx, (STAX, STAY): xy, (STAY, STAY): yy}


def covariances():
    yield solution("a covariance", ROW_REPORT, one_estimate(".25", contents=COVA))
    yield Run("solve takes covariances", {"a": one_estimate(".25", contents=COVA)}, ROW_REPORT, ["solve", "a", "report"])
    yield solution("a standard deviation on the diagonal of correlations", ROW_REPORT, one_estimate(".5", contents=("U CORR", "")))
    one = {"apriori": {STAX: "1"}, "estimates": {STAX: "1.5"}, "matrix": {(STAX, STAX): "1"}, "contents": CORR}
    yield solution("a correlation with the deviation of its row", ROW_REPORT, estimated(**one, errors={STAX: ".500000E+00"}))
    yield solution("a correlation without a deviation", f"no weight file:a {ONE_NAME}", estimated(**one, errors={STAX: ""}))
    yield solution("a correlation with a deviation of zero", f"no weight file:a {ONE_NAME}", estimated(**one, errors={STAX: ".000000E+00"}))
    yield Run("two covariances that are one", {"in": estimated(TWO, NEAR, two_names("1", "1", "1"), contents=COVA)}, f"pivot file:in {STAY_NAME}", ["solve", "in", "report"])
    yield solution("a constraint by its covariance", None, one_estimate(".2", constraint=".25", contents=COVA))
    yield solution("a covariance's constraint by an information matrix", None, one_estimate(".2", constraint="4", contents=("L COVA", "L INFO")))
    yield solution("a covariance's constraint by a deviation", None, one_estimate(".2", deviation=".500000E+00", contents=COVA), {"constraints": "sigma"})
    yield solution("an information matrix's constraint by its correlations", FREED_REPORT, one_estimate("5", constraint=".5", contents=("L INFO", "L CORR")))
    yield solution("a constraint by the deviation of its row", None, one_estimate("5", deviation=".500000E+00", constraint="1", contents=("L INFO", "L CORR")))
    yield solution("a constraint's correlation without a deviation", f"no weight file:a {ONE_NAME}", one_estimate("5", constraint="1", contents=("L INFO", "L CORR")))
    both = two_names("2", "-.5", "1")
    yield solution("covariances of two", None, estimated(TWO, NEAR, both, contents=COVA))
    yield solution("covariances of two, constrained", None, estimated(TWO, NEAR, both, two_names("8", "1", "9"), contents=COVA))
    yield solution("one of two is constrained", None, estimated(TWO, NEAR, both, {(STAY, STAY): "9"}, contents=COVA))
    yield solution("a constraint of two, one of them without a variance", f"range file:a {STAY_NAME} {ONE_NAME}", estimated(TWO, NEAR, both, {(STAX, STAY): "1", (STAY, STAY): "9"}, contents=COVA))
    yield solution("a covariance with a weight", None, estimated(TWO, NEAR, both, two_names("8", "1", "9"), contents=COVA), {"weight": "12.5"})
    yield solution("a covariance with scale exponents", None, estimated(TWO, NEAR, both, two_names("8", "1", "9"), contents=COVA), rest="[scale]\nSTAX = 3\nSTAY = -2\n")
    for number, (xx, xy, yy) in enumerate([("1", ".25", "1"), ("2", ".25", "1"), ("3.123456789", "-.999", ".0001")]):
        text = estimated(TWO, NEAR, two_names(xx, xy, yy), two_names("1", "-.5", "1"), dict.fromkeys(TWO, "7.00000E+00"), CORR, errors={STAX: ".100000E+00", STAY: "2.00000E+00"})
        yield solution(f"correlations and their constraints, {number}", None, text)
        yield solution(f"correlations with a weight and scale exponents, {number}", None, text, {"weight": "0.123456789"}, rest="[scale]\nSTAX = 6\nSTAY = -4\n")
    three = estimated({STAX: "1", STAZ: "1", STAY: "2"}, {STAZ: "1", STAX: "1.5", STAY: "2"}, {**both, (STAZ, STAZ): ".01"}, contents=COVA)
    yield solution("covariances, correlations and normal equations", None, three, b=estimated(TWO, NEAR, two_names("1", ".5", "1"), contents=CORR), c=one_estimate("4"), d=THREE["a"])
    yield solution("an a priori row without a covariance", None, estimated({**TWO, STAZ: "1"}, NEAR, both, contents=COVA))
    yield solution("an estimate without a variance", f"pivot file:a {STAY_NAME}", estimated(TWO, NEAR, {(STAX, STAX): "1"}, contents=COVA))
    yield solution("a negative variance", f"range file:a {BOTH}", one_estimate("-.25", contents=COVA))
    yield solution("a covariance past its range", f"range file:a {BOTH}", one_estimate("1.1E+10", contents=COVA))
    yield solution("a covariance past every word", f"range file:a {STAY_NAME} {ONE_NAME}", estimated(TWO, NEAR, two_names("1", "1E+50", "1"), contents=COVA))
    yield solution("covariances in the order of their names", f"range file:a {BOTH}", estimated({STAY: "2", STAX: "1"}, {STAY: "2.25", STAX: "1.5"}, two_names("1E+11", "0", "1E+11"), contents=COVA))
    yield solution("a correlation over one", f"range file:a {STAY_NAME} {ONE_NAME}", estimated(TWO, NEAR, two_names("1", "-1.0000001", "1"), contents=CORR))
    yield solution("a correlation over one before a deviation", f"no weight file:a {STAY_NAME}", estimated(TWO, NEAR, two_names("1", "1.1", "1"), contents=CORR, errors={STAX: "1.00000E+00", STAY: ""}))
    yield solution("a row before the deviation of the next", f"range file:a {BOTH}", estimated(TWO, NEAR, two_names("1", "0", "1"), contents=CORR, errors={STAX: "1.00000E+06", STAY: ""}))
    yield solution("full correlation", f"pivot file:a {STAY_NAME}", estimated(TWO, NEAR, two_names("1", "1", "1"), contents=CORR))
    yield solution("a standard deviation past its range", f"range file:a {BOTH}", one_estimate("1.1E+05", contents=CORR))
    yield solution("a small covariance", f"range file:a {BOTH}", one_estimate("1E-17", contents=COVA))
    yield solution("a smaller covariance", None, one_estimate("1E-30", contents=COVA))
    yield solution("a weight past the range of an inverse", f"range file:a {BOTH}", one_estimate("1E-10", contents=COVA), {"weight": "1E+07"})
    yield solution("digits of a weight past the range of an inverse", f"range file:a {BOTH}", one_estimate("1E-13", contents=COVA), {"weight": "1.23456789E-3"})
    yield solution("the estimates before the constraints", f"pivot file:a {STAY_NAME}", estimated(TWO, NEAR, two_names("1", "1", "1"), two_names("1", "-1.5", "1"), contents=("L COVA", "L CORR")))
    yield solution("the constraints after the estimates", f"range file:a {STAY_NAME} {ONE_NAME}", estimated(TWO, NEAR, both, two_names("2", "-1.5", "1"), contents=("L COVA", "L CORR")))
    yield solution("nearly the same covariances", None, estimated(TWO, NEAR, two_names("1", "1", "1.0000001"), contents=COVA))
    yield solution("more nearly the same covariances", None, estimated(TWO, NEAR, two_names("1", "1", "1.000000001"), contents=COVA))
    yield solution("still more nearly the same covariances", None, estimated(TWO, NEAR, two_names("1", "1", "1.00000000001"), contents=COVA))
    yield solution("covariances of unlike sizes", None, estimated(TWO, NEAR, two_names("1E-08", "1E-03", "1E+09"), contents=COVA))


# ---- one solution by its information, its covariances and its correlations


def alike():
    """Correlations of .6 and standard deviations that are decimals, so that all four forms are one matrix exactly."""
    sigma = {STAX: "5E-01", STAY: ".25", STAZ: "2"}
    covariance = {**two_names(".25", ".075", ".0625"), (STAZ, STAZ): "4"}
    information = {**two_names("6.25", "-7.5", "25"), (STAZ, STAZ): ".25"}
    correlation = {(STAX, STAY): ".6", **{(name, name): sigma[name] for name in sigma}}
    ones = {(STAX, STAY): ".6", **{(name, name): "1" for name in sigma}}
    for what, matrix, contents in (("information", information, INFO), ("covariances", covariance, COVA), ("correlations", correlation, CORR), ("correlations of rows", ones, CORR)):
        text = estimated({**TWO, STAZ: "3"}, {**NEAR, STAZ: "3.5"}, matrix, {(STAY, STAY): ".5"}, contents=(contents[0], "L INFO"), errors={name: f"{float(value):.5E}" for name, value in sigma.items()})
        yield solution(f"one solution by its {what}", None, text)
        yield solution(f"one solution by its {what} beside normal equations", None, text, b=one("4", "2"))


def are_alike(runs):
    """Whether their exact systems are one, so that the bounds of each hold the answers of all."""
    systems = [exact.summed(run.files, exact.control.read_control(run.files["control"])) for run in runs]
    return all(system == systems[0] for system in systems)


# ---- covariances made by chance


def decimal_text(value, digits):
    """A fraction with so many digits."""
    if value == 0:
        return "0"
    scale = digits - len(str(abs(int(value)))) if abs(value) >= 1 else digits + len(str(int(1 / abs(value)))) - 1
    return f"{round(value * Fraction(10) ** scale)}E{-scale}"


def forms_of(rng, names, most):
    """A strong matrix as information, covariances, and correlations with deviations on the diagonal or in the rows; and these deviations."""
    information = {(name, name): Fraction(rng.randint(3 * most, 10 * most)) for name in names}
    for k, name in enumerate(names):
        for other in names[:k]:
            information[name, other] = information[other, name] = Fraction(rng.randint(-most // 10, most // 10))
    inverse = made_covariances.exact_inverse(information, names)
    sigma = {name: Fraction(math.isqrt(int(inverse[name, name] * 10**40)), 10**20) for name in names}
    pairs = [(name, other) for k, name in enumerate(names) for other in names[: k + 1]]
    covariance = {pair: decimal_text(inverse[pair], 15) for pair in pairs}
    between = {(a, b): decimal_text(inverse[a, b] / sigma[a] / sigma[b], 15) for a, b in pairs if a != b}
    beside = {**between, **{(name, name): decimal_text(sigma[name], 15) for name in names}}
    ones = {**between, **{(name, name): "1" for name in names}}
    texts = {name: f"{float(sigma[name]):.5E}" for name in names}
    return [({pair: decimal_text(information[pair], 15) for pair in pairs}, "INFO"), (covariance, "COVA"), (beside, "CORR"), (ones, "CORR")], texts


def chance_covariances():
    rng = random.Random(20261203)
    for number in range(24):
        codes = rng.sample(["GRAZ", "WTZR", "ZIMM", "ONSA"], rng.randint(1, 3))
        names = [named(kind, code) for code in codes for kind in rng.sample(AXES, rng.randint(1, 3))]
        base = {name: rng.randint(-6 * 10**9, 6 * 10**9) for name in names}
        files, entries = {}, []
        for k in range(rng.randint(1, 3)):
            mine = rng.sample(names, rng.randint(1, len(names)))
            values = {name: f"{base[name] + rng.randint(-500, 500)}E-03" for name in mine}
            estimates = {name: f"{base[name] + rng.randint(-500, 500)}.{rng.randint(0, 999):03}E-03" for name in rng.sample(mine, len(mine))}
            forms, errors = forms_of(rng, mine, 10**6)
            matrix, content = rng.choice(forms)
            loose, deviations = forms_of(rng, rng.sample(mine, rng.randint(1, len(mine))), 10**2)
            constraints, held = rng.choice(loose)
            contents = (f"{rng.choice('LU')} {content}", f"{rng.choice('LU')} {held}")
            files[f"f{k}"] = estimated(values, estimates, matrix, constraints if rng.random() < 0.6 else None, deviations, contents, errors=errors)
            more = {"weight": rng.choice(["0.5", "2", "1.25", "12.3456789", "1E-3"])} if rng.random() < 0.5 else {}
            entries.append(entry(f"f{k}", **more))
        rest = f'[run]\nreference = "{rng.choice(list(files))}"\n' if rng.random() < 0.4 else ""
        if number % 3 == 0:
            rest += f"[scale]\nSTAX = {rng.randint(-2, 2)}\nSTAZ = {rng.randint(-2, 2)}\n"
        yield Run(f"covariances made by chance, {number}", {**files, "control": control(*entries, rest=rest)})


# ---- loose networks: the pilot is refused, and its transpose encloses or is refused too


@dataclass
class SecondTry(Run):
    # the refusal of the pilot by itself, after 'snxcomb: '
    first: str = ""

    def is_as_wanted(self):
        with mock.patch.object(solve, "by_either", lambda r, make: (r, make(r))):
            alone = combine.verdict(self.words, self.files)[1]
        return alone == f"snxcomb: {self.first}\n" and super().is_as_wanted()


def of_station(kind, code):
    return f"{kind}/{code}/A/1/24:001:00000"


def loose_normal(what, first, rows, sigma, held, vector=1, wants=None):
    """A network of bench/make_file.py, with a multiple of its right side."""
    parameters, matrix, right = make_file.loose_network(rows, sigma, held)
    text = make_file.exact_text(parameters, matrix, [vector * number for number in right]).encode()
    return SecondTry(what, {"in": text}, wants, ["solve", "in", "report"], first=first)


def loose_covariances(variance):
    """Four stations that move together with this variance in each axis, and by themselves with standard deviations of 1.4 to 2 mm."""
    rng = random.Random(20261204)
    names = [named(axis, f"{letter}BCD") for letter in "ABCD" for axis in AXES]
    matrix = {}
    for k, name in enumerate(names):
        for other in names[: k + 1]:
            together = variance if dict(name)["kind"] == dict(other)["kind"] else 0
            own = rng.randint(200, 400) if name == other else rng.randint(-15, 15)
            matrix[name, other] = f"{together * 10**8 + own}E-08"
    return estimated(dict.fromkeys(names, "1"), dict.fromkeys(names, "1.5"), matrix, contents=COVA)


def loose():
    twice = " ".join([of_station("STAX", "0000")] * 2)
    yield loose_normal("all of ten stations held to 10 m", f"defect stack {of_station('STAY', '0000')} 32212254720", 30, "10", 10)
    yield loose_normal("three of ten stations held to 1 m", f"defect stack {of_station('STAZ', '0003')} 1474939616", 30, "1", 3)
    yield loose_normal("three of ten stations held to 10 m", f"range stack {' '.join([of_station('STAZ', '0005')] * 2)}", 30, "10", 3)
    yield loose_normal("three of ten stations held to 10 m at their values", f"defect stack {of_station('STAY', '0000')} 32212254720", 30, "10", 3, 0)
    yield loose_normal("all of ten stations held to 100 m", f"range stack {' '.join([of_station('STAY', '0000')] * 2)}", 30, "100", 10)
    # the transpose is refused by its defect, by another defect, and by its start vector at another row
    both = f"range stack {twice}"
    yield loose_normal("four stations held to 1 km", both, 12, "1000", 4, wants=both)
    both = f"defect stack {of_station('STAX', '0000')} 12884901888"
    yield loose_normal("four stations held to 1 km at their values", both, 12, "1000", 4, 0, wants=both)
    both = f"range stack {twice}"
    yield loose_normal("four stations held to 100 m and far from their values", both, 12, "100", 4, 10**5, wants=both)
    first = f"defect file:a {of_station('STAX', 'ABCD')} 12884901888"
    found, lost = loose_covariances(400), loose_covariances(10**8)
    yield SecondTry("covariances of stations held to 20 m", {"a": found, "control": control(entry("a"))}, first=first)
    rest = datum("ABCD BBCD CBCD", translation="0.001")
    yield SecondTry("covariances of stations held to 20 m with a datum", {"a": found, "control": control(entry("a"), rest=rest)}, first=first)
    yield SecondTry("covariances of stations held to 10 km", {"a": lost, "control": control(entry("a"))}, first, first=first)


# ---- solutions made by chance: with constraints of both kinds, beside normal equations


def chance_solutions():
    rng = random.Random(20261202)
    for number in range(28):
        codes = rng.sample(["GRAZ", "WTZR", "ZIMM", "ONSA"], rng.randint(1, 3))
        names = [named(kind, code) for code in codes for kind in rng.sample(AXES, rng.randint(1, 3))]
        base = {name: rng.randint(-6 * 10**9, 6 * 10**9) for name in names}
        files, entries = {}, []
        for k in range(rng.randint(1, 4)):
            mine = rng.sample(names, rng.randint(1, len(names)))
            values = {name: f"{base[name] + rng.randint(-500, 500)}E-03" for name in mine}
            more = {}
            if rng.random() < 0.3:
                files[f"f{k}"] = chance_file(rng, mine, values, 0)
            else:
                estimates = {name: f"{base[name] + rng.randint(-500, 500)}.{rng.randint(0, 999):03}E-03" for name in rng.sample(mine, len(mine))}
                matrix = {(name, name): f"{rng.randint(3 * 10**5, 10**7)}.{rng.randint(0, 999):03}" for name in mine}
                for a, name in enumerate(mine):
                    matrix |= {(name, other): f"{rng.randint(-10**4, 10**4)}.5" for other in mine[:a] if rng.random() < 0.7}
                constraints = {pair: f"{rng.randint(1, 10**4)}.25" for pair in matrix if rng.random() < 0.4} if rng.random() < 0.6 else None
                deviations = {name: rng.choice([".100000E-01", ".500000E-02", ".123457E+00", "1.00000E+02", ""]) for name in mine}
                files[f"f{k}"] = estimated(values, estimates, matrix, constraints, deviations, contents=(rng.choice(["L INFO", "U INFO"]), rng.choice(["L INFO", "U INFO"])))
                more["constraints"] = rng.choice(["auto", "sigma", "none", "matrix" if constraints is not None else "auto"])
            if rng.random() < 0.5:
                more["weight"] = rng.choice(["0.5", "2", "1.25", "12.3456789", "1E-3"])
            entries.append(entry(f"f{k}", **more))
        rest = f'[run]\nreference = "{rng.choice(list(files))}"\n' if rng.random() < 0.4 else ""
        if number % 3 == 0:
            rest += f"[scale]\nSTAX = {rng.randint(-4, 6)}\nSTAZ = {rng.randint(-4, 6)}\n"
        yield Run(f"solutions made by chance, {number}", {**files, "control": control(*entries, rest=rest)})


def many(prefix, count):
    names = [named(code=f"{prefix}{k:03}") for k in range(count)]
    return neq(dict.fromkeys(names, "1"), dict.fromkeys(names, "1"), {(name, name): "4" for name in names})


def sizes():
    files = {"a": many("A", 400), "b": many("B", 400), "c": many("C", 400), "d": many("D", 400)}
    yield Run("a group of too many names", {**files, "control": control(entry("a", group="g"), entry("c", group="g"), entry("d", group="g"), entry("b"))}, "too many group:g 1200")
    yield Run("all together have too many names", {**files, "control": control(*map(entry, "abcd"))}, "too many stack 1200")
    yield Run("two groups of too many names together", {**files, "control": control(entry("a", group="h"), entry("b", group="h"), entry("c", group="g"), entry("d", group="g"))}, "too many stack 1600")
    yield Run("as many names as there may be", {**files, "c": many("A", 200), "d": many("D", 200), "control": control(*map(entry, "abcd"))})


# ---- made by chance, from a fixed seed


def chance_file(rng, names, values, t):
    mine = rng.sample(names, rng.randint(1, len(names)))
    matrix = {(name, name): f"{rng.randint(10**5, 10**7)}.{rng.randint(0, 999):03}" for name in mine}
    for k, name in enumerate(mine):
        for other in mine[:k]:
            if rng.random() < 0.7:
                matrix[name, other] = f"{rng.randint(-10**4, 10**4)}.{rng.randint(0, 999):03}"
    vector = {name: f"{rng.randint(-10**6, 10**6)}.{rng.randint(0, 9999):04}E-03" for name in mine}
    return neq({name: values[name] for name in mine}, vector, matrix)


def chances():
    rng = random.Random(20261201)
    kinds = ["STAX", "STAY", "STAZ", "XPO", "YPO", "RS_RA", "RS_DE"]
    for number in range(24):
        names = [named(kind, code, solution=str(soln)) for kind in rng.sample(kinds, 4) for code in ("GRAZ", "WTZR", "ZIMM") for soln in (1, 2)]
        names = rng.sample(names, rng.randint(1, 12))
        values = {name: f"{rng.randint(-10**12, 10**12)}E-06" for name in names}
        files = {f"f{k}": chance_file(rng, names, values, 0) for k in range(rng.randint(1, 7))}
        entries = []
        for name in rng.sample(list(files), len(files)):
            more = {}
            if rng.random() < 0.5:
                more["weight"] = rng.choice(["0.5", "2", ".001", "1.25", "12.3456789", "1E-3"])
            if rng.random() < 0.5:
                more["group"] = rng.choice(["g", "h", "f0"])
            entries.append(entry(name, **more))
        scale = "".join(f"{kind} = {rng.randint(-4, 6)}\n" for kind in rng.sample(kinds, 2))
        yield Run(f"made by chance, {number}", {**files, "control": control(*entries, rest=f"[scale]\n{scale}" if number % 2 else "")})


def examples():
    files = {path.name: path.read_bytes() for path in sorted((EXAMPLES / "combination").iterdir())}
    yield Run("the example", files, words=["combine", "control.toml", "combined.snx", "report.txt"])
    yield Run("one of its files", files, words=["solve", "north.snx", "report.txt"])
    free = {path.name: path.read_bytes() for path in sorted((EXAMPLES / "free-network").iterdir())}
    published = {path.name: path.read_bytes() for path in sorted((EXAMPLES / "solutions").iterdir())}
    yield Run("the example of solutions", published, words=["combine", "control.toml", "combined.snx", "report.txt"])
    covariances = {path.name: path.read_bytes() for path in sorted((EXAMPLES / "covariances").iterdir())}
    yield Run("the example of covariances", covariances, words=["combine", "control.toml", "combined.snx", "report.txt"])
    yield Run("one of its solutions", covariances, words=["solve", "west.snx", "report.txt"])
    centres = {path.name: path.read_bytes() for path in sorted((EXAMPLES / "two-centres").iterdir())}
    yield Run("the example of two centres", centres, words=["combine", "control.toml", "combined.snx", "report.txt"])
    yield Run("the example of a free network", free, words=["combine", "control.toml", "combined.snx", "report.txt"])
    yield Run("the example of a free network without a datum", free, "pivot stack STAY/ZIMM/A/1/24:003:43200", words=["combine", "no-datum.toml", "combined.snx", "report.txt"])


# ---- combined files: the worked one, and lines of it that a rule turns

WORKED = """%=SNX 2.02 ABC 24:010:00000 ABC 00:000:00000 00:000:00000 C 00001 2 S
+FILE/REFERENCE
 SOFTWARE           snxcomb
-FILE/REFERENCE
+FILE/COMMENT
 INPUT a
 INPUT b
 INPUT c
-FILE/COMMENT
+SITE/ID
-SITE/ID
+SOLUTION/EPOCHS
-SOLUTION/EPOCHS
+SOLUTION/STATISTICS
 NUMBER OF UNKNOWNS                                  1
-SOLUTION/STATISTICS
+SOLUTION/ESTIMATE
     1 STAX   ABCD  A    1 24:001:00000 m    2  .137500000000000E+01 .353553E+00
-SOLUTION/ESTIMATE
+SOLUTION/APRIORI
     1 STAX   ABCD  A    1 24:001:00000 m    2  .100000000000000E+01 .000000E+00
-SOLUTION/APRIORI
+SOLUTION/NORMAL_EQUATION_VECTOR
     1 STAX   ABCD  A    1 24:001:00000 m    2  .300000000000000E+01
-SOLUTION/NORMAL_EQUATION_VECTOR
+SOLUTION/NORMAL_EQUATION_MATRIX L
     1     1   .80000000000000E+01
-SOLUTION/NORMAL_EQUATION_MATRIX L
%ENDSNX
""".splitlines()
# where the blocks have their lines
SOFTWARE, INPUTS, SITES_END, EPOCHS_END, UNKNOWNS, ESTIMATED, KNOWN, RIGHT, ELEMENTS = 3, (6, 7, 8), 11, 13, 15, 18, 21, 24, 27
ABC = '[output]\nagency = "ABC"\ncreated = "24:010:00000"\n'


def file_run(what, files, changes, output="", rest="", entries=None):
    """A run that wants the worked file with other lines in the place of those of some numbers."""
    entries = list(map(entry, sorted(files))) if entries is None else entries
    text = joined(changed(WORKED, changes)).decode("latin-1")
    return Run(what, {**files, "control": control(*entries, head=ABC + output, rest=rest)}, file=text)


def header_of(agency="ABC", created="24:010:00000", start="00:000:00000", end="00:000:00000", technique="C", count=1, code=2, content="S"):
    return f"%=SNX 2.02 {agency} {created} {agency} {start} {end} {technique} {count:05} {code} {content}"


def file_of(what, rows, matrix, text, name="a", rest="", code=2, **more):
    """A run of one file; of each row its columns 8 to 46, its estimate with its deviation, its a priori value and its right side."""
    head = {1: header_of(count=len(rows), code=code), INPUTS[0]: f" INPUT {name}", INPUTS[1]: [], INPUTS[2]: []}
    lines = {UNKNOWNS: f" NUMBER OF UNKNOWNS             {len(rows):22}", ELEMENTS: matrix}
    numbers = list(enumerate(rows, 1))
    lines[ESTIMATED] = [f"{k:6} {label} {estimate}" for k, (label, estimate, _, _) in numbers]
    lines[KNOWN] = [f"{k:6} {label} {known:>21} .000000E+00" for k, (label, _, known, _) in numbers]
    lines[RIGHT] = [f"{k:6} {label} {right:>21}" for k, (label, _, _, right) in numbers]
    return file_run(what, {name: text}, {**head, **lines}, rest=rest, **more)


LABEL = "STAX   ABCD  A    1 24:001:00000 m    2"
ONE_VALUE = " .100000000000000E+01"


def one_of(what, estimate, known, right, element, text, label=LABEL, **more):
    return file_of(what, [(label, estimate, known, right)], [f"     1     1 {element:>21}"], text, **more)


def with_lines(text, *blocks):
    """The file with blocks before its footer."""
    return text.replace(b"%ENDSNX\n", joined([line for it in blocks for line in it]) + b"%ENDSNX\n")


def sites_in(text, *lines):
    return with_lines(text, block("SITE/ID", *lines))


def epochs_in(text, *lines):
    return with_lines(text, block("SOLUTION/EPOCHS", *lines))


def header_files():
    worked = file_run("the worked file", THREE, {})
    assert len(worked.file) == 818
    yield worked
    yield file_run("files listed last first, in groups", THREE, {}, entries=[entry("c", group="a"), entry("b"), entry("a", group="a")])
    texts = {SOFTWARE: [" DESCRIPTION        A sum", " OUTPUT              two ", " CONTACT            x@y.z  ", WORKED[SOFTWARE - 1]]}
    yield file_run("texts of the reference", THREE, texts, 'contact = "x@y.z  "\noutput = " two "\ndescription = "A sum"\n')
    yield file_run("one text", THREE, {SOFTWARE: [f" OUTPUT             {'w' * 60}", WORKED[SOFTWARE - 1]]}, f'output = "{"w" * 60}"\n')
    yield file_run("empty texts", THREE, {}, 'description = ""\noutput = ""\ncontact = ""\n')
    yield file_run("a text of a blank", THREE, {SOFTWARE: [" CONTACT             ", WORKED[SOFTWARE - 1]]}, 'contact = " "\n')
    yield file_run("technique and content", THREE, {1: header_of(technique="P", content="E")}, 'technique = "P"\ncontent = "E"\n')
    for created, said in (("24:010:86400", "24:011:00000"), ("00:000:00000", "00:000:00000"), ("51:001:00001", "51:001:00001"), (" " * 12, "00:000:00000")):
        run = file_run(f"created at {created}", THREE, {1: header_of(agency="~a1", created=said)})
        run.files["control"] = run.files["control"].replace(b'"ABC"\ncreated = "24:010:00000"', f'"~a1"\ncreated = "{created}"'.encode())
        yield run
    yield one_of("a file of a long name", " .150000000000000E+01 .500000E+00", ONE_VALUE, ".200000000000000E+01", ".40000000000000E+01", THREE["a"], name="n" * 60)
    capitals = {"B": THREE["b"], "a": THREE["a"], "_": THREE["c"]}
    yield file_run("names of files byte by byte", capitals, {6: " INPUT B", 7: " INPUT _", 8: " INPUT a"}, entries=[entry("a"), entry("_"), entry("B")])


def site_files():
    a, b, c = THREE.values()
    lines = [" ABCD  A of a", " WXYZ  A of a, first", " WXYZ A  of a, second", " abcd  A", " ABCD  B of a"]
    ordered = [" ABCD  A of a", " ABCD  B of a", " BBBB  A of c", " WXYZ  A of a, first", " abcd  A"]
    yield file_run("sites in several files", {"a": sites_in(a, *lines), "b": b, "c": sites_in(c, " ABCD  A of c", " BBBB  A of c")}, {SITES_END: [*ordered, "-SITE/ID"]})
    listed = [entry("c"), entry("b"), entry("a")]
    yield file_run("a site of the file with the least name", {"a": a, "b": sites_in(b, " ABCD  A of b"), "c": sites_in(c, " ABCD  A of c")}, {SITES_END: [" ABCD  A of b", "-SITE/ID"]}, entries=listed, rest='[run]\nreference = "c"\n')
    long = " ABCD  A".ljust(79, ".")
    yield file_run("a site's line of 82 columns", {"a": sites_in(a, long + "xyz"), "b": b, "c": c}, {SITES_END: [long + "x", "-SITE/ID"]})
    yield file_run("blanks at column 80", {"a": sites_in(a, long + " xyz"), "b": b, "c": c}, {SITES_END: [long, "-SITE/ID"]})
    yield file_run("blanks at a site's end, and a tab first", {"a": sites_in(a, "\tABCD  A x \t "), "b": b, "c": c}, {SITES_END: ["\tABCD  A x", "-SITE/ID"]})
    yield file_run("bytes that are no letters", {"a": sites_in(a, " ABCD  A M\xe4rz \x01"), "b": b, "c": c}, {SITES_END: [" ABCD  A M\xe4rz \x01", "-SITE/ID"]})
    yield file_run("sites without a code or a point", {"a": sites_in(a, " ABCD    x", "      A x", "         x"), "b": b, "c": c}, {SITES_END: ["         x", "      A x", " ABCD    x", "-SITE/ID"]})


def moments(what, rows, said, start, end):
    """A run of the three files with these rows of moments."""
    files = {name: epochs_in(text, *rows[name]) if name in rows else text for name, text in THREE.items()}
    return file_run(what, files, {1: header_of(start=start, end=end), EPOCHS_END: [*said, "-SOLUTION/EPOCHS"]})


NONE = "00:000:00000"


def epoch_files():
    first, second, third, last = "23:365:00000", "24:001:00000", "24:002:00000", "24:003:00000"
    both = {"a": [f" ABCD  A    1   {second} {last} {NONE}"], "b": [f" ABCD  A    1 P {first} {third} {NONE}"]}
    yield moments("moments of two files, and a technique that is blank", both, [f" ABCD  A    1   {first} {last} 24:001:43200"], first, last)
    both = {"b": [f" ABCD  A    1 L {second} {third} {second}", f" ABCD  A 0001 P {first} {second} {first}"], "c": [f" ABCD  A    1 D {third} {last} {last}"]}
    yield moments("the first technique of the least file, and solutions 1 and 0001", both, [f" ABCD  A    1 L {first} {last} 24:001:43200"], first, last)
    rows = {"a": [f" ABCD  A    1 P {NONE} {third} {second}"], "b": [f" ABCD  A    1 P {second} {NONE} {second}"]}
    yield moments("a start and an end that are Never", rows, [f" ABCD  A    1 P {second} {third} 24:001:43200"], second, third)
    rows = {"a": [f" ABCD  A    1 P {NONE} {third} {second}", f" WXYZ  A    1 P {first} {NONE} {second}", f" WXYZ  B    1 P {NONE} {NONE} {second}"]}
    said = [f" ABCD  A    1 P {NONE} {third} {NONE}", f" WXYZ  A    1 P {first} {NONE} {NONE}", f" WXYZ  B    1 P {NONE} {NONE} {NONE}"]
    yield moments("means that are Never", rows, said, first, third)
    rows = {"a": [f" ABCD  A    1 P {NONE} {NONE} {second}", " ABCD  A    2 P", " ABCD  A"]}
    said = [f" ABCD  A        {NONE} {NONE} {NONE}", f" ABCD  A    1 P {NONE} {NONE} {NONE}", f" ABCD  A    2 P {NONE} {NONE} {NONE}"]
    yield moments("all moments are Never", rows, said, NONE, NONE)
    rows = {"a": [f" ABCD  A    1 P {second} 24:001:00001"], "b": [" ABCD  A    2 P 69:365:86399 70:001:00000", " ABCD  A    3 P 24:001:86399 24:002:00002", " ABCD  A    4 P 51:001:00000 50:365:86399"]}
    said = [f" ABCD  A    1 P {second} 24:001:00001 {second}", " ABCD  A    2 P 69:365:86399 70:001:00000 69:365:86399", " ABCD  A    3 P 24:001:86399 24:002:00002 24:002:00000", " ABCD  A    4 P 51:001:00000 50:365:86399 00:366:43199"]
    yield moments("means of half seconds", rows, said, "51:001:00000", "50:365:86399")
    rows = {"a": [f" ABCD  A    1 P {last} {first} {second}"]}
    yield moments("an end before its start", rows, [f" ABCD  A    1 P {last} {first} 24:001:43200"], last, first)
    rows = {"c": [f" b     A   10 P {second} {third}", f" b     A    2 P {second} {third}", f" b     A   1A P {second} {third}", f" b    AB    2 P {second} {third}", f" B       9999 ~ {second} {third}"]}
    said = [f" B       9999 ~ {second} {third} 24:001:43200", *(f" b    {words} P {second} {third} 24:001:43200" for words in (" A   10", " A   1A", " A    2", "AB    2"))]
    yield moments("moments in the order of bytes", rows, said, second, third)


def row_files():
    """With 4 for a matrix the corrections are multiples of 10^-13 and the deviations of 10^-6, both rounded down."""
    five = ".500000E+00"
    a = THREE["a"]
    yield file_run("a scale", THREE, {}, rest="[scale]\nSTAX = 3\n")
    yield file_run("a negative scale", THREE, {}, rest="[scale]\nSTAX = -4\n")
    yield one_of("another unit, and no solution", f" .150000000000000E+01 {five}", ONE_VALUE, ".200000000000000E+01", ".40000000000000E+01", one("4", "2", name=named("XPO", "----", point="--", solution="----", epoch=NONE), unit=""), label=f"XPO    ---- -- ---- {NONE}      2")
    yield one_of("a right ascension", " .125000000050000E+01 .500000E-06", ".125000000000000E+01", ".200000000000000E+04", ".40000000000000E+13", one("4E+12", "2E+3", "1.25", name=named("RS_RA")), label=LABEL.replace("STAX ", "RS_RA"))
    half = f" .500000000000000E+00 {five}"
    for value, said in (("1E-99", ".100000000000000E-98"), ("-1E-99", "-.100000000000000E-98"), ("9.9999999999999E-100", ".000000000000000E+00"), ("-1E-400", ".000000000000000E+00"), ("0", ".000000000000000E+00")):
        yield one_of(f"an a priori value of {value}", half, said, ".200000000000000E+01", ".40000000000000E+01", one("4", "2", value))
    yield one_of("all is zero but the matrix", f" .000000000000000E+00 {five}", ".000000000000000E+00", ".000000000000000E+00", ".40000000000000E+01", one("4", "0", "0"))
    yield one_of("a great a priori value that is negative", f"-.999999999999500E+12 {five}", "-.100000000000000E+13", ".200000000000000E+01", ".40000000000000E+01", one("4", "2", "-1E+12"))
    yield one_of("halves away from zero", " .734567890123455E+00 .499999E+00", ".123456789012346E+01", "-.200000000000001E+01", ".40000000000001E+01", one("4.00000000000005", "-2.000000000000005", "1.234567890123455"))
    yield one_of("digits that carry", " .150000000000000E+01 .316227E+00", ONE_VALUE, ".500000000000000E+01", ".10000000000000E+02", one("9.99999999999995", "5"))
    yield one_of("the middle of a negative right side", f" .999999999999900E+00 {five}", ONE_VALUE, "-.200000000000000E-17", ".40000000000000E+01", one("4", "-1.5E-18"))
    yield one_of("the middle of a positive right side", f" .100000000000000E+01 {five}", ONE_VALUE, ".100000000000000E-17", ".40000000000000E+01", one("4", "1.5E-18"))
    yield one_of("the middle at a scale", f" .999999999999900E+00 {five}", ONE_VALUE, "-.200000000000000E-14", ".40000000000000E+01", one("4", "-1.5E-15"), rest="[scale]\nSTAX = 3\n")
    yield one_of("the middle at a negative scale", f" .100000000000000E+01 {five}", ONE_VALUE, ".100000000000000E-21", ".40000000000000E+01", one("4", "1.5E-22"), rest="[scale]\nSTAX = -4\n")
    yield one_of("a great deviation", " .500001000000000E+10 .500000E+05", ".100000000000000E+05", ".200000000000000E+01", ".40000000000000E-09", one("4E-10", "2", "1E+04"))
    yield one_of("a weight", f" .150000000000000E+01 {five}", ONE_VALUE, ".200000000000000E+01", ".40000000000000E+01", one("8", "4"), entries=[entry("a", weight="0.5")])
    yield one_of("a deviation is rounded down", " .100000000000000E+01 .707106E+00", ONE_VALUE, ".000000000000000E+00", ".20000000000000E+01", one("2", "0"))
    moved = {"a": one("4", "2", "1"), "b": one("4", "2", "2"), "c": one("1E-99", "0", "2")}
    common = {ESTIMATED: f"     1 {LABEL}  .200000000000000E+01 .353553E+00", RIGHT: f"     1 {LABEL}  .800000000000000E+01"}
    yield file_run("common a priori values", moved, common)
    other = {KNOWN: f"     1 {LABEL}  .200000000000000E+01 .000000E+00", RIGHT: f"     1 {LABEL}  .000000000000000E+00"}
    yield file_run("those of a reference", moved, {**common, **other}, rest='[run]\nreference = "b"\n')
    yield one_of("a solution without its constraint", " .350000000000000E+01 .500000E+00", ONE_VALUE, ".100000000000000E+02", ".40000000000000E+01", estimated({STAX: "1"}, {STAX: "3"}, {(STAX, STAX): "5"}, {(STAX, STAX): "1"}))


def matrix_files():
    """Seven rows with a matrix of two blocks; and rows of a datum's sites."""
    names = [named(code=f"{letter}BCD") for letter in "ABCDEFG"]
    labels = [LABEL.replace("ABCD", dict(name)["code"]) for name in names]
    values = [(f" .1{'0' * 14}E+01", f" .1{'0' * 14}E+01", f" .{'0' * 15}E+00")] * 7
    # 5 and -3 at the first and the last row, which have 5, 3 over 16 as inverse; 4 at the others
    deviations = [".559016", *[".500000"] * 5, ".559016"]
    rows = [(label, f"{estimate} {deviation}E+00", known, right) for label, deviation, (estimate, known, right) in zip(labels, deviations, values)]
    rows[1] = labels[1], " .150000000000000E+01 .500000E+00", ONE_VALUE, " .200000000000000E+01"
    rows[2] = labels[2], " .500000000000000E+00 .500000E+00", ONE_VALUE, "-.200000000000000E+01"
    zero, four, five, three = f"{' ' * 3}.{'0' * 14}E+00", f"{' ' * 3}.4{'0' * 13}E+01", f"{' ' * 3}.5{'0' * 13}E+01", f"{' ' * 2}-.3{'0' * 13}E+01"
    lines = [
        f"     1     1{five}",
        f"     2     1{zero}{four}",
        f"     3     1{zero}{zero}{four}",
        f"     4     1{zero}{zero}{zero}",
        f"     4     4{four}",
        f"     5     1{zero}{zero}{zero}",
        f"     5     4{zero}{four}",
        f"     6     1{zero}{zero}{zero}",
        f"     6     4{zero}{zero}{four}",
        f"     7     1{three}{zero}{zero}",
        f"     7     4{zero}{zero}{zero}",
        f"     7     7{five}",
    ]
    matrix = {(name, name): "4" for name in names[1:6]} | {(names[0], names[0]): "5", (names[0], names[6]): "-3", (names[6], names[6]): "5"}
    backwards = list(reversed(names))
    text = neq(dict.fromkeys(names, "1"), {name: {names[1]: "2", names[2]: "-2"}.get(name, "0") for name in backwards}, matrix)
    yield file_of("rows of one to seven columns", rows, lines, text)
    # elements that are no whole number of units
    names = [STAX, STAY, STAZ]
    rows = [(LABEL.replace("STAX", dict(name)["kind"]), f"{ONE_VALUE} .500000E+00", ONE_VALUE, values[0][2]) for name in names]
    lines = [f"     1     1{four}", f"     2     1   .1{'0' * 13}E-17{four}", f"     3     1  -.2{'0' * 13}E-17{zero}{four}"]
    text = neq(dict.fromkeys(names, "1"), dict.fromkeys(names, "0"), {(name, name): "4" for name in names} | {(STAX, STAY): "1.5E-18", (STAX, STAZ): "-1.5E-18"})
    yield file_of("the middles of elements", rows, lines, text)
    # a datum of one site: 4 is added to the diagonal of three of five rows
    names = [STAX, named(solution="2"), STAY, STAZ, named("XPO")]
    labels = [f"{dict(name)['kind']:6} ABCD  A    {dict(name).get('solution', 1)} 24:001:00000 m    2" for name in names]
    held, free = " .125000000000000E+01 .353553E+00", " .150000000000000E+01 .500000E+00"
    rows = [(f"{label[:-1]}{code}", held if code == 1 else free, ONE_VALUE, " .200000000000000E+01") for label, code in zip(labels, (1, 2, 1, 1, 2))]
    lines = [f"     1     1{four}", f"     2     1{zero}{four}", f"     3     1{zero}{zero}{four}", f"     4     1{zero}{zero}{zero}", f"     4     4{four}", f"     5     1{zero}{zero}{zero}", f"     5     4{zero}{four}"]
    text = neq(dict.fromkeys(names, "1"), dict.fromkeys(names, "2"), {(name, name): "4" for name in names})
    yield file_of("a datum of one site", rows, lines, text, rest=datum("ABCD", translation="0.5"), code=1)
    yield file_of("its solution with zeros", rows, lines, text, rest=datum("ABCD", translation="0.5", solution="0001"), code=1)


def example_files():
    """Each example's files, and its combined file combined again."""
    for folder in ("combination", "covariances", "free-network", "solutions", "two-centres"):
        files = {path.name: path.read_bytes() for path in sorted((EXAMPLES / folder).iterdir())}
        run = Run(f"the combined file of the example {folder}", files, words=["combine", "control.toml", "out", "report"])
        yield run
        rest = files["control.toml"].decode()
        rest = "\n".join(f"[{part}" for part in rest.split("\n[") if part.startswith(("datum]", "scale]")))
        made = run.answer[2]["out"].encode("latin-1")
        yield held(f"the combined file of the example {folder} combined again", f"{rest}\n", None, made=made)
    yield held("a combined file beside one of its parts", "", None, a=THREE["a"], made=joined(WORKED))


def combined_files():
    for make in (header_files, site_files, epoch_files, row_files, matrix_files, example_files):
        yield from make()


def control_texts():
    for name, text, wants in control_files.CASES:
        yield Run(f"control file: {name}", {"control": text}, wants)


GROUPS = {
    "orders, groups and weights": orders,
    "refusals of combinations": refusals,
    "common a priori values": values,
    "datum rows": data,
    "free networks made by chance": free_chances,
    "solutions": solutions,
    "solutions that are refused": refused_solutions,
    "covariances and correlations": covariances,
    "one solution in four forms": alike,
    "covariances made by chance": chance_covariances,
    "loose networks": loose,
    "solutions made by chance": chance_solutions,
    "many names": sizes,
    "combinations made by chance": chances,
    "examples of combinations": examples,
    "combined files": combined_files,
    "control files": control_texts,
}


def main():
    runs = [run for make in GROUPS.values() for run in make()]
    if len(sys.argv) > 1:
        (run,) = [run for run in runs if run.what == sys.argv[1]]
        for name, text in run.files.items():
            Path(sys.argv[2], name).write_bytes(text)
        return 0
    wrong = [run for run in runs if not run.is_as_wanted()]
    forms = list(alike())
    wrong += [chosen[0] for chosen in (forms[::2], forms[1::2]) if not are_alike(chosen)]
    for run in wrong:
        status, line, made = run.answer
        print(f"FAILED  {run.what}: {status} {line}{made.get('report', '')}, not {run.wants!r}")
        if run.file is not None:
            print("\n".join(difflib.unified_diff(run.file.splitlines(), made.get("out", "").splitlines(), "wanted", "made", lineterm="", n=0)))
    print(f"{len(runs) - len(wrong)} passed, {len(wrong)} failed")
    return 1 if wrong else 0


if __name__ == "__main__":
    sys.exit(main())
