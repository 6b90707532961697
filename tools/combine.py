#!/usr/bin/env python3
"""Computes what `snxcomb combine` answers, apart from the program.

    combine.py CONTROL         writes the report of a combination, or the line of its refusal; the files are taken from the folder
    combine.py file CONTROL    writes its combined file, or the line of its refusal
    combine.py solve FILE      the report of one file

It is written from the rules, not from the program's code: tools/control.py reads the control file, tools/sinex.py the files,
tools/solve.py has the rules from a stack to its report, and tools/combined_file.py those of the combined file.
"""

import sys
import apriori
import combined_file
import control
import covariances
import datum
import recovery
import sinex
import solve

FILE_LIMIT = 64 * 2**20
TOTAL_LIMIT = 2**30
CONTROL_LIMIT = 2**20
MOST_NAMES = 1000


class Refusal(Exception):
    """A run is refused: its status, and what its line says after the program's name."""

    def __init__(self, status, line):
        super().__init__(status, line)
        self.status, self.line = status, line


def add(w, v):
    return (w[0] + v[0], w[1] + v[1])


def text_of(files, name, limit):
    if name not in files:
        raise Refusal(3, f"no file {name}")
    if len(files[name]) > limit:
        raise Refusal(3, f"too long {name}")
    return files[name]


def read_control(files, name, outputs):
    """The control of a combination, tested before any of its files is read."""
    try:
        found = control.read_control(text_of(files, name, CONTROL_LIMIT))
    except control.ControlFault as fault:
        path = "" if fault.cause == "syntax" else f" {fault.path}"
        raise Refusal(3, f"control {fault.cause}{path}") from None
    for plan in found.files:
        if plan.name in (name, *outputs):
            raise Refusal(3, f"control samename {plan.name}")
    if found.reductions:
        raise Refusal(3, f"unbuilt {name}")
    return found


def read_inputs(files, plans):
    """The plans in the order of their names, each with its document."""
    inputs, left = [], TOTAL_LIMIT
    for plan in sorted(plans, key=lambda plan: plan.name.encode()):
        text = text_of(files, plan.name, min(FILE_LIMIT, left))
        left -= len(text)
        try:
            inputs.append((plan, sinex.read_document(text)))
        except sinex.LineFault as fault:
            raise Refusal(3, f"{plan.name}:{fault.line} {fault.cause}") from None
    return inputs


def common_values(inputs, reference):
    """The common a priori value of each name."""
    try:
        return apriori.common(inputs, reference)
    except apriori.TwoUnits as clash:
        raise Refusal(3, f"unit {clash.args[0].text()}") from None


class Part:
    """Normal equations by name: words at pairs of names and at names, and of each name its a priori value, unit and scale."""

    def __init__(self, table=(), right=(), known=()):
        self.table, self.right, self.known = dict(table), dict(right), dict(known)

    def add(self, other):
        for key, w in other.table.items():
            self.table[key] = add(self.table.get(key, (0, 0)), w)
        for name, w in other.right.items():
            self.right[name] = add(self.right.get(name, (0, 0)), w)
        self.known.update(other.known)


def recover(plan, document, scales):
    """The normal equations of a file."""
    place = f"file:{plan.name}"
    try:
        known, table, right = recovery.recover(plan, document, scales)
    except recovery.Missing as missing:
        raise Refusal(3, f"block {place} {missing.args[0]}") from None
    except recovery.Unmatched as unmatched:
        raise Refusal(3, f"unmatched {place} {unmatched.args[0].text()}") from None
    except recovery.Empty:
        raise Refusal(3, f"empty {place}") from None
    except covariances.NoWeight as lacking:
        raise Refusal(3, f"no weight {place} {lacking.args[0].text()}") from None
    except recovery.Range as passed:
        raise Refusal(6, f"range {place} {' '.join(name.text() for name in passed.args)}") from None
    except covariances.NotInverted as refusal:
        cause, name, *rest = refusal.args
        raise Refusal(6, " ".join([cause, place, name.text(), *map(str, rest)])) from None
    return Part(table, right, known)


def shift(plan, part, values):
    """The normal equations of a file at the common values."""
    stack = Ordered(part)
    new = [values[name] for name in stack.names]
    try:
        right = apriori.shifted_right(stack.table, stack.right, stack.scales, stack.x0, new)
    except apriori.Range as passed:
        row, column = (stack.names[i].text() for i in passed.args)
        raise Refusal(6, f"range file:{plan.name} {row} {column}") from None
    part.right = dict(zip(stack.names, right))
    part.known = {name: (values[name], *part.known[name][1:]) for name in stack.names}
    return part


def stacked(parts, place):
    """The sum of parts, or the refusal of more than 1,000 names."""
    whole = Part()
    for part in parts:
        whole.add(part)
        if len(whole.known) > MOST_NAMES:
            raise Refusal(3, f"too many {place} {len(whole.known)}")
    return whole


def stack_groups(parts):
    """The stack of each group in the order of the groups, and then that of all."""
    groups = {}
    for plan, part in parts:
        key = (plan.group.encode(), 0) if plan.group else (plan.name.encode(), 1)
        groups.setdefault(key, []).append(part)
    stacks = [stacked(groups[key], f"group:{key[0].decode()}") for key in sorted(groups)]
    return stacked(stacks, "stack")


class Ordered:
    """A stack as tools/solve.py takes it: by the places of its names."""

    def __init__(self, part):
        self.names = sorted(part.known)
        self.x0 = [part.known[name][0] for name in self.names]
        self.units = [part.known[name][1] for name in self.names]
        self.scales = [part.known[name][2] for name in self.names]
        self.table = [[part.table.get((row, column), (0, 0)) for column in self.names] for row in self.names]
        self.right = [part.right[name] for name in self.names]


def add_datum(stack, given):
    """The rows of the datum in a stack."""
    try:
        datum.add(stack.names, stack.x0, stack.scales, stack.table, given)
    except datum.Unmatched as site:
        raise Refusal(3, f"unmatched site {'/'.join(text.strip().decode() for text in site.args[0])}") from None
    except datum.Range as passed:
        raise Refusal(6, f"range stack {stack.names[passed.args[0]].text()} {stack.names[passed.args[1]].text()}") from None


def solution_of(stack):
    try:
        return solve.Solution(stack)
    except solve.Refused as refusal:
        cause, *places = refusal.args
        texts = [stack.names[places[0]].text(), *map(str, places[1:])]
        if cause == "range":
            texts[1] = stack.names[places[1]].text()
        raise Refusal(6, " ".join([cause, "stack", *texts])) from None


def stack_of(found, files):
    """The inputs of a control, the table of their stack before the rows of the datum, and their stack."""
    inputs = read_inputs(files, found.files)
    values = common_values(inputs, found.reference)
    parts = [(plan, shift(plan, recover(plan, document, found.scales), values)) for plan, document in inputs]
    stack = Ordered(stack_groups(parts))
    free = [list(row) for row in stack.table]
    if found.datum:
        add_datum(stack, found.datum)
    return inputs, free, stack


def combined(found, files):
    """The report of the files of a control, and their combined file where the control has a header for it."""
    inputs, free, stack = stack_of(found, files)
    solution = solution_of(stack)
    return solve.report(stack, solution), found.output and combined_file.text_of(found, inputs, free, stack, solution)


def outputs_of(words, files):
    """What a command writes, by name: texts of one byte for each letter."""
    if words[:1] == ["solve"] and len(words) == 3 and words[1] != words[2]:
        return {words[2]: combined(control.alone(words[1]), files)[0]}
    if words[:1] == ["combine"] and len(set(words[1:])) == len(words[1:]) == 3:
        found = read_control(files, words[1], words[2:])
        report, text = combined(found, files)
        return {words[2]: text, words[3]: report}
    raise Refusal(2, "words")


def verdict(words, files):
    """The status, the line that is said, and the texts that are written, by name."""
    try:
        return 0, "", outputs_of(words, files)
    except Refusal as refusal:
        return refusal.status, f"snxcomb: {refusal.line}\n", {}


def solved(file, text):
    """The status, and the report of a text or the line of its refusal."""
    status, line, made = verdict(["solve", file, "report"], {file: text})
    return status, made.get("report", line)


def files_in(names):
    """The bytes of those files that are there."""
    found = {}
    for name in names:
        try:
            with open(name, "rb") as file:
                found[name] = file.read()
        except OSError:
            pass
    return found


def main():
    name = sys.argv[-1]
    files = files_in([name])
    if sys.argv[1] == "solve":
        status, said = solved(name, files[name])
    else:
        try:
            files |= files_in(plan.name for plan in control.read_control(files[name]).files)
        except control.ControlFault:
            pass
        status, line, made = verdict(["combine", name, "out", "report"], files)
        said = made.get("out" if sys.argv[1] == "file" and len(sys.argv) > 2 else "report", line)
    sys.stdout.buffer.write(said.encode() if status else said.encode("latin-1"))
    return status


if __name__ == "__main__":
    sys.exit(main())
