"""The combined SINEX file: part of tools/combine.py.

It is written from the rules, not from the program's code. Texts are of one byte for each letter.
"""

import math
from fractions import Fraction

import sinex
import solve
from datum import AXES, parts_of

# the least a priori value that is printed, in size
LEAST = Fraction(1, 10**99)
PER_LINE = 3


# ---- numbers


def e_text(number, tens, digits):
    """number * 10^tens with so many significant digits, to nearest, halves away from zero."""
    if number == 0:
        return f".{'0' * digits}E+00"
    size = abs(number)
    width = len(str(size))
    unit = 10 ** max(width - digits, 0)
    rounded = (2 * size + unit) // (2 * unit) * 10 ** max(digits - width, 0)
    if rounded == 10**digits:
        rounded, width = rounded // 10, width + 1
    return f"{'-' if number < 0 else ''}.{rounded}E{width + tens:+03}"


def decimal_text(value, digits):
    """A decimal, or zero where it is too small."""
    return e_text(*parts_of(value), digits) if abs(value) >= LEAST else e_text(0, 0, digits)


# ---- sites and moments of all files


def rows_of(document, block):
    return document[block].rows if block in document else []


def site_lines(documents):
    """The line of each code and point, in their order: that of the first document that has them."""
    found = {}
    for document in documents:
        for code, point, line in rows_of(document, sinex.SITES):
            found.setdefault((code, point), line)
    return [found[key] for key in sorted(found)]


def seconds(at):
    return at[0] * 86400 + at[1]


def half_way(start, end):
    if sinex.NEVER in (start, end):
        return sinex.NEVER
    return divmod((seconds(start) + seconds(end)) // 2, 86400)


def least(moments):
    return min((at for at in moments if at != sinex.NEVER), default=sinex.NEVER)


def greatest(moments):
    """Never stands before all others."""
    return max(moments, default=sinex.NEVER)


def moments_of(documents):
    """Of each code, point and solution, in their order: the technique, the least start and the greatest end."""
    found = {}
    for document in documents:
        for *key, technique, start, end, _ in rows_of(document, sinex.EPOCHS):
            found.setdefault(tuple(key), []).append((technique, start, end))
    return [
        (*key, rows[0][0], least(start for _, start, _ in rows), greatest(end for *_, end in rows)) for key, rows in sorted(found.items())
    ]


def epoch_line(code, point, solution, technique, start, end):
    times = (sinex.moment_text(at) for at in (start, end, half_way(start, end)))
    return b" ".join([b"", code, point.strip().rjust(2), solution.strip().rjust(4), technique, *times])


# ---- blocks


def block(title, *lines):
    return [f"+{title}", *lines, f"-{title}"]


def header(output, moments, count, is_held):
    agency = output.agency
    span = least(start for *_, start, _ in moments), greatest(end for *_, end in moments)
    created, start, end = (sinex.moment_text(at).decode() for at in (output.created, *span))
    return f"%=SNX 2.02 {agency} {created} {agency} {start} {end} {output.technique} {count:05} {1 if is_held else 2} {output.content}"


def reference_block(output):
    texts = {"DESCRIPTION": output.description, "OUTPUT": output.output, "CONTACT": output.contact, "SOFTWARE": "snxcomb"}
    return block("FILE/REFERENCE", *(f" {word:18} {text}" for word, text in texts.items() if text))


def code_of(name, datum):
    """The constraint code: 1 for the coordinates of the datum's sites."""
    return 1 if datum and name.kind in AXES and tuple(name[1:4]) in datum.sites else 2


def matrix_lines(table, scales):
    """Each row up to the diagonal."""
    for i, words in enumerate(table):
        for first in range(0, i + 1, PER_LINE):
            columns = range(first, min(first + PER_LINE, i + 1))
            values = (e_text(solve.middle(words[j]), scales[i] + scales[j] - 18, 14) for j in columns)
            yield f" {i + 1:5} {first + 1:5}" + "".join(f" {value:>21}" for value in values)


def deviations(solution):
    """The standard deviation of each row, with its power of ten."""
    variances = (max(solution.inverse[i][i], 0) for i in range(len(solution.inverse)))
    return [(math.isqrt(v * 10**28 // 2 ** (60 + solution.g)), -5 - power) for v, power in zip(variances, solution.powers)]


def text_of(found, inputs, free, stack, solution):
    """The text of a control's combined file: free is the table before the datum's rows, the stack and its solution are with them."""
    documents = [document for _, document in inputs]
    moments = moments_of(documents)
    names, count = stack.names, len(stack.names)
    labels = [f"{solve.label(k + 1, names[k], stack.units[k])} {code_of(names[k], found.datum)}" for k in range(count)]
    estimates = [e_text(estimate, -16, 15) for estimate in solution.estimates]
    errors = [e_text(*deviation, 6) for deviation in deviations(solution)]
    known = [decimal_text(value, 15) for value in stack.x0]
    right = [e_text(solve.middle(w), t - 18, 15) for w, t in zip(stack.right, stack.scales)]
    lines = [
        header(found.output, moments, count, found.datum),
        *reference_block(found.output),
        *block("FILE/COMMENT", *(f" INPUT {plan.name}" for plan, _ in inputs)),
        *block(sinex.SITES.decode(), *(line.decode("latin-1") for line in site_lines(documents))),
        *block(sinex.EPOCHS.decode(), *(epoch_line(*row).decode("latin-1") for row in moments)),
        *block("SOLUTION/STATISTICS", f" {'NUMBER OF UNKNOWNS':30} {count:22}"),
        *block(sinex.ESTIMATE.decode(), *(f"{label} {value:>21} {error:>11}" for label, value, error in zip(labels, estimates, errors))),
        *block(sinex.APRIORI.decode(), *(f"{label} {value:>21} {e_text(0, 0, 6):>11}" for label, value in zip(labels, known))),
        *block(sinex.VECTOR.decode(), *(f"{label} {value:>21}" for label, value in zip(labels, right))),
        *block(f"{sinex.NORMAL_MATRIX.decode()} L", *matrix_lines(free, stack.scales)),
        "%ENDSNX",
    ]
    return "".join(line + "\n" for line in lines)
