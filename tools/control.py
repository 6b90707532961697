#!/usr/bin/env python3
"""Reads the control file of `snxcomb combine`, apart from the program.

    control.py FILE    says what the control file says, or its first fault

It is written from the rules, not from the program's code; TOML is read by Python's tomllib. `read_control` gives a Control, or
raises a ControlFault: the first fault in the order of the rules, with the path of its key.
"""

import sys
import tomllib
from dataclasses import dataclass, field
from fractions import Fraction

import sinex

SIGMAS = ("translation", "rotation", "scale")


class ControlFault(Exception):
    """The control file has a fault: its cause, and the path of the key."""

    def __init__(self, cause, path):
        super().__init__(cause, path)
        self.cause, self.path = cause, path


@dataclass
class Plan:
    """What is said of a file."""

    name: str
    weight: Fraction = Fraction(1)
    group: str = ""
    form: str = "auto"
    constraints: str = "auto"


@dataclass
class Datum:
    """The sites by code, point and solution, and the standard deviation of each kind of rows, or nothing."""

    sites: list
    sigmas: dict


@dataclass
class Output:
    """What stands in the combined file's header and reference."""

    agency: str
    created: tuple
    technique: str = "C"
    content: str = "S"
    description: str = ""
    output: str = ""
    contact: str = ""


@dataclass
class Control:
    """What a control file says."""

    files: list
    output: Output | None = None
    datum: Datum | None = None
    reductions: list = field(default_factory=list)
    scales: dict = field(default_factory=dict)
    workers: int = 1
    reference: str = ""


STANDARD_SCALES = {b"RS_RA ": 6, b"RS_DE ": 6}


def alone(name):
    """The control of a single file, with all defaults."""
    return Control([Plan(name)], scales=dict(STANDARD_SCALES))


# ---- tables


def demand(holds, cause, path):
    if not holds:
        raise ControlFault(cause, path)


def only_keys(table, path, *known):
    others = sorted(key.encode() for key in table if key not in known)
    if others:
        raise ControlFault("key", f"{path}.{others[0].decode()}" if path else others[0].decode())


def is_text(value):
    return isinstance(value, str)


def is_number(value):
    return isinstance(value, int) and not isinstance(value, bool)


def is_table(value):
    return isinstance(value, dict)


def is_list_of(test):
    return lambda value: isinstance(value, list) and all(test(it) for it in value)


def given(table, path, key, kind, check, must=False, default=None):
    """The value at a key: Key where it must be there and isn't, Kind, and then Value where check gives None."""
    whole = f"{path}.{key}" if path else key
    if key not in table:
        demand(not must, "key", whole)
        return default
    demand(kind(table[key]), "kind", whole)
    value = check(table[key])
    demand(value is not None, "value", whole)
    return value


# ---- texts


def bytes_between(least, most, low, high):
    def check(text):
        raw = text.encode()
        return text if least <= len(raw) <= most and all(low <= byte <= high for byte in raw) else None

    return check


def one_of(*words):
    return lambda text: text if text in words else None


def letter(text):
    return text if len(text) == 1 and "A" <= text <= "Z" else None


def created(text):
    raw = text.encode()
    if len(raw) != 12:
        return None
    try:
        return (sinex.moment(raw),)
    except sinex.Bad:
        return None


def positive(text):
    """A positive decimal of at most 9 digits."""
    try:
        value = sinex.decimal(text.encode())
    except sinex.Bad:
        return None
    digits = abs(value)
    while digits and digits.denominator > 1:
        digits *= 10
    while digits and digits % 10 == 0:
        digits /= 10
    return value if value > 0 and digits < 10**9 else None


def texts_of_name(width, may_be_empty=True):
    def check(text):
        raw = text.encode()
        if len(raw) > width or not all(32 <= byte <= 126 for byte in raw):
            return None
        trimmed = raw.strip(b" \t")
        return trimmed.ljust(width) if trimmed or may_be_empty else None

    return check


def solution_of_name(text):
    found = texts_of_name(4)(text)
    return None if found is None else sinex.solution(found.strip())


def moment_of_name(text):
    raw = text.encode()
    if len(raw) > 12:
        return None
    try:
        return sinex.moment(raw)
    except sinex.Bad:
        return None


def site(texts):
    if len(texts) != 3:
        return None
    found = texts_of_name(4)(texts[0]), texts_of_name(2)(texts[1]), solution_of_name(texts[2])
    return None if None in found else found


def parameter(texts):
    if len(texts) != 5:
        return None
    found = (
        texts_of_name(6, may_be_empty=False)(texts[0]),
        texts_of_name(4)(texts[1]),
        texts_of_name(2)(texts[2]),
        solution_of_name(texts[3]),
        moment_of_name(texts[4]),
    )
    return None if None in found else found


# ---- the tables of the control file


def output_of(table):
    only_keys(table, "output", "agency", "created", "technique", "content", "description", "output", "contact")
    agency = given(table, "output", "agency", is_text, bytes_between(3, 3, 33, 126), must=True)
    (at,) = given(table, "output", "created", is_text, created, must=True)
    technique = given(table, "output", "technique", is_text, letter, default="C")
    content = given(table, "output", "content", is_text, letter, default="S")
    printable, keys = bytes_between(0, 60, 32, 126), ("description", "output", "contact")
    return Output(agency, at, technique, content, *(given(table, "output", key, is_text, printable, default="") for key in keys))


def run_of(table):
    only_keys(table, "run", "reference", "workers")
    reference = given(table, "run", "reference", is_text, lambda text: text)
    return reference, given(table, "run", "workers", is_number, lambda n: n if 1 <= n <= 16 else None, default=1)


def files_of(tables):
    plans = []
    for k, table in enumerate(tables):
        path = f"file.{k}"
        only_keys(table, path, "name", "weight", "group", "form", "constraints")
        name = given(table, path, "name", is_text, bytes_between(1, 60, 33, 126), must=True)
        demand(name not in [plan.name for plan in plans], "repeated", f"{path}.name")
        weight = given(table, path, "weight", is_text, positive, default=Fraction(1))
        group = given(table, path, "group", is_text, bytes_between(1, 8, 33, 126), default="")
        form = given(table, path, "form", is_text, one_of("auto", "neq", "solution"), default="auto")
        kept = given(table, path, "constraints", is_text, one_of("auto", "matrix", "sigma", "none"), default="auto")
        plans.append(Plan(name, weight, group, form, kept))
    return plans


def sites_of(lists):
    if not 1 <= len(lists) <= 100:
        return None
    found = [site(texts) for texts in lists]
    return None if None in found else found


def datum_of(table):
    only_keys(table, "datum", "sites", *SIGMAS)
    sites = given(table, "datum", "sites", is_list_of(is_list_of(is_text)), sites_of, must=True)
    demand(len(set(sites)) == len(sites), "repeated", "datum.sites")
    sigmas = [given(table, "datum", key, is_text, positive) for key in SIGMAS]
    demand(any(it is not None for it in sigmas), "value", "datum")
    return Datum(sites, dict(zip(SIGMAS, sigmas)))


def reductions_of(tables):
    reductions = []
    for k, table in enumerate(tables):
        path = f"reduce.{k}"
        only_keys(table, path, "at", "of", "param")
        place = given(table, path, "at", is_text, one_of("file", "group", "end"), must=True)
        named = "" if place == "end" else given(table, path, "of", is_text, lambda text: text, must=True)
        name = given(table, path, "param", is_list_of(is_text), parameter, must=True)
        demand(name not in [it[2] for it in reductions], "repeated", f"{path}.param")
        reductions.append((place, named, name))
    return reductions


def is_type(key):
    raw = key.encode()
    return 1 <= len(raw) <= 6 and all(32 <= byte <= 126 for byte in raw) and raw.strip(b" ") == raw


def scales_of(table):
    keys = sorted(table, key=str.encode)
    for key in keys:
        demand(is_type(key), "key", f"scale.{key}")
    scales = dict(STANDARD_SCALES)
    for key in keys:
        scales[key.encode().ljust(6)] = given(table, "scale", key, is_number, lambda t: t if -4 <= t <= 6 else None)
    return scales


def read_control(text):
    """The control of a text."""
    try:
        top = tomllib.loads(text.decode())
    except (UnicodeDecodeError, tomllib.TOMLDecodeError):
        raise ControlFault("syntax", "") from None
    only_keys(top, "", "output", "run", "file", "datum", "reduce", "scale")
    output = given(top, "", "output", is_table, lambda it: it, must=True)
    run = given(top, "", "run", is_table, lambda it: it, default={})
    files = given(top, "", "file", is_list_of(is_table), lambda it: it or None, must=True)
    demand(len(files) <= 64, "toomany", "file")
    datum = given(top, "", "datum", is_table, lambda it: (it,))
    reduce = given(top, "", "reduce", is_list_of(is_table), lambda it: it, default=[])
    scale = given(top, "", "scale", is_table, lambda it: (it,) if len(it) <= 60 else None, default=({},))[0]
    output = output_of(output)
    reference, workers = run_of(run)
    plans = files_of(files)
    datum = datum_of(datum[0]) if datum else None
    reductions = reductions_of(reduce)
    scales = scales_of(scale)
    names, groups = [plan.name for plan in plans], {plan.group for plan in plans} - {""}
    demand(reference is None or reference in names, "value", "run.reference")
    for k, (place, named, _) in enumerate(reductions):
        known = place == "end" or named in (names if place == "file" else groups)
        demand(known, "value", f"reduce.{k}.of")
    return Control(plans, output, datum, reductions, scales, workers, reference or "")


if __name__ == "__main__":
    with open(sys.argv[1], "rb") as file:
        try:
            print(read_control(file.read()))
        except ControlFault as fault:
            print("control", fault.cause, fault.path)
