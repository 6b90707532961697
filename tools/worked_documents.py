"""SINEX documents whose answers were worked by hand, but for a few: one function for each group of tools/documents.py."""

import itertools
from fractions import Fraction

import sinex
from document_builders import (
    Case,
    NORMAL,
    ONE_LINES,
    ONE_NAME,
    ONE_REPORT,
    PAIR_APRIORI,
    PAIR_LINES,
    PAIR_MATRIX,
    PAIR_REPORT,
    PAIR_VECTOR,
    after,
    bare,
    block,
    changed,
    gap,
    joined,
    lead,
    network,
    one,
    one_put,
    one_value,
    pair,
    pair_matrix,
    pair_put,
    put,
    row,
    strip,
    whole,
)


# ---- texts by themselves

# moments as days from 1970-01-01 and seconds; none where the text is no moment
MOMENTS = {
    b"51:001:00000": (-6940, 0),
    b"24:366:86399": (20088, 86399),
    b"24:001:86400": (19724, 0),
    b" 50:365:86399 ": (29584, 86399),
    b"00:000:00000": sinex.NEVER,
    b"  \t": sinex.NEVER,
    b"50:366:00000": None,
    b"50:365:86400": None,
    b"24:1:0": None,
}

# numbers as a mantissa and a power of ten; none where the text is no number
NUMBERS = {
    b"-.407557863123456E+07": (-407557863123456, -8),
    b".5-10": (5, -11),
    b"\t0.1D+01 ": (1, 0),
    b"100E-402": (1, -400),
    b".1E+61": (1, 60),
    b"": None,
    b"1.2.3": None,
    b"1E": None,
    b"10E60": None,
    b"10E-402": None,
    b"9" * 19: None,
}


def read(reader, text):
    try:
        return reader(text)
    except sinex.Bad:
        return None


def texts_read_otherwise():
    """The texts of both tables that tools/sinex.py reads otherwise."""
    bad = [text for text, at in MOMENTS.items() if read(sinex.moment, text) != at]
    numbers = {text: it and it[0] * Fraction(10) ** it[1] for text, it in NUMBERS.items()}
    return bad + [text for text, number in numbers.items() if read(sinex.decimal, text) != number]


# ---- the frame


def frames():
    cuts = "1 NoHeader,2 NoFooter,3 NoEnd,4 NoEnd,5 NoFooter,6 NoEnd,7 NoEnd,8 NoFooter,9 NoEnd,10 NoEnd,11 NoFooter".split(",")
    for lines, wants in enumerate(cuts):
        yield Case(f"cut after {lines} lines", joined(ONE_LINES[:lines]), f"in:{wants}")
    yield Case("the document of one row", joined(ONE_LINES), ONE_REPORT)
    yield one("header and footer alone", {n: [] for n in range(2, 11)}, "block file:in SOLUTION/APRIORI")
    yield from headers()
    yield from first_columns()
    yield from ends()
    yield from line_ends()
    yield from passed()


def headers():
    for first in ("", " ", "* made by hand", "%=snx 2.02", " %=SNX 2.02", "%ENDSNX", "+SOLUTION/APRIORI", "\xef\xbb\xbf%=SNX 2.02", "%=SN"):
        yield one(f"line 1 is {first!r}", {1: first}, "in:1 NoHeader")
    for first in ("%=SNX", "%=SNX 2.03", "%=SNX 1.00", "%=SNX 2.0", "%=SNX  2.02", "%=SNX2.02", "%=SNX 2,02", "%=SNX 3.02"):
        yield one(f"line 1 is {first!r}", {1: first}, "in:1 Version")
    for first in ("%=SNX 2.00", "%=SNX 2.01", "%=SNX 2.02", "%=SNXx2.02\xff", "%=SNX\t2.020 and more"):
        yield one(f"line 1 is {first!r}", {1: first})
    yield Case("a header alone", b"%=SNX 2.02", "in:2 NoFooter")
    yield Case("one line end", b"\n", "in:1 NoHeader")
    yield lead("a second header", [ONE_LINES[0]], "in:2 FirstColumn")


def first_columns():
    for line in (
        "x", "# no comment", "1", "%", "%END", " %ENDSNX", " outside a block", "\tx", "\x00", "\xff", "\x0b", "\x0c", "\xa0", "\r\r"
    ):
        yield lead(f"{line!r} outside a block", [line], "in:2 FirstColumn")
    for line in ("x", "%", "%=SNX 2.02", "0", "\x00", "\r\r", "=", "\x0b"):
        yield one(f"{line!r} in a block", {3: [line, ONE_LINES[2]]}, "in:3 FirstColumn")
    yield one("a row one column to the left", {3: put(ONE_LINES[2][1:], 1, "1")}, "in:3 FirstColumn")
    yield one("a footer with a letter less", {11: "%ENDSN"}, "in:11 FirstColumn")
    yield one("a footer after a blank", {11: " %ENDSNX"}, "in:11 FirstColumn")
    yield one("a footer in lower case", {11: "%endsnx"}, "in:11 FirstColumn")
    yield one("a footer with more behind it", {11: "%ENDSNX and more"})
    yield one("a footer with a letter more", {11: "%ENDSNXX"})


def ends():
    yield one("a title in a block", {3: "+FILE/COMMENT"}, "in:3 Nested")
    yield one("a block's own title in it", {3: "+SOLUTION/APRIORI"}, "in:3 Nested")
    yield one("a title of no name in a block", {3: "+"}, "in:3 Nested")
    for end in (
        "-SOLUTION/APRIORI",
        "-SOLUTION/NORMAL_EQUATION_MATRI",
        "-SOLUTION/NORMAL_EQUATION_MATRIXL",
        "-",
        "- " + NORMAL,
        "-" + NORMAL.lower(),
    ):
        yield one(f"the matrix ends by {end!r}", {10: end}, "in:10 WrongEnd")
    for end in (f"-{NORMAL}", f"-{NORMAL} U", f"-{NORMAL}\tanything", f"-{NORMAL} "):
        yield one(f"the matrix ends by {end!r}", {10: end})
    yield lead("an end line outside a block", ["-SOLUTION/APRIORI"], "in:2 WrongEnd")
    yield lead("an end line of no name outside a block", ["-"], "in:2 WrongEnd")
    yield one("an end line twice", {4: [ONE_LINES[3]] * 2}, "in:5 WrongEnd")
    yield one("no end line", {10: []}, "in:10 NoEnd")
    yield one("no title", {2: []}, "in:2 FirstColumn")
    yield one("no end and no footer", {10: [], 11: []}, "in:10 NoEnd")
    yield one("no footer", {11: []}, "in:11 NoFooter")
    for line in ("* a comment", " data", "+FILE/COMMENT", "-FILE/COMMENT", "%ENDSNX", "x", "\x00", "%=SNX 2.02"):
        yield one(f"{line!r} after the footer", {11: ["%ENDSNX", line]}, "in:12 AfterFooter")
    yield one("blanks and a comment after the footer", {11: ["%ENDSNX", "", " \t ", "*"]}, "in:14 AfterFooter")
    yield one("blanks after the footer", {11: ["%ENDSNX", "", " \t ", "\t"]})
    yield one("blanks up to column 80 after the footer", {11: ["%ENDSNX", " " * 80 + "text"]})
    yield Case("the footer in the first block", joined(changed(ONE_LINES, {3: "%ENDSNX"})), "in:3 NoEnd")


def line_ends():
    yield Case("CR LF", joined(ONE_LINES, "\r\n"), ONE_REPORT)
    yield Case("CR LF at every second line", b"".join(joined([it], ("\r\n", "\n")[k % 2]) for k, it in enumerate(ONE_LINES)), ONE_REPORT)
    yield Case("no line end at the end", joined(ONE_LINES)[:-1], ONE_REPORT)
    yield Case("a lone CR at the end", joined(ONE_LINES)[:-1] + b"\r", ONE_REPORT)
    yield Case("CR alone", joined(ONE_LINES, "\r"), "in:2 NoFooter")
    yield Case("two CR before each LF", joined(ONE_LINES, "\r\r\n"), "in:8 MissingBlock")
    yield Case("LF CR", joined(ONE_LINES, "\n\r"), "in:2 FirstColumn")
    yield Case("CR LF after the footer and a CR", joined(ONE_LINES, "\r\n") + b"\r", "in:12 AfterFooter")
    yield one_put("a CR in a value", 3, 60, "\r", "in:3 Number")
    yield one_put("a CR in a column that isn't read", 3, 7, "\r")
    yield one("text past column 80", {3: ONE_LINES[2] + "text", 6: ONE_LINES[5].ljust(80) + "\xff", 11: "%ENDSNX".ljust(80) + "x"})
    yield one("a title's word past column 80", {8: f"+{NORMAL}".ljust(80) + "L"}, "in:8 Field")
    yield one("a title's word at column 80", {8: f"+{NORMAL}".ljust(79) + "L"})
    yield one("80 blanks and text, and 80 tabs and text", {2: [" " * 80 + "x", ONE_LINES[1], "\t" * 80 + "x"]})
    yield one("79 blanks and text outside a block", {2: [" " * 79 + "x", ONE_LINES[1]]}, "in:2 FirstColumn")
    yield one(
        "a value one column to the right, its last digit in column 81", {3: put(ONE_LINES[2], 70, "          1")[:79] + " 5"}, ONE_REPORT
    )


def passed():
    yield lead("a block that isn't read", block("FILE/COMMENT", " ABC text", " \xff\x00", "\t", "* comment", " +", " -FILE/COMMENT"))
    yield one(
        "a comment, a blank line and a block",
        {1: [ONE_LINES[0], "* made by hand"], 4: [ONE_LINES[3], "", *block("FILE/COMMENT", " ABC text")]},
    )
    yield lead("a block that isn't read, twice", block("FILE/COMMENT", " a") * 2)
    yield lead("blocks of no name", block("", " a") + ["+ x", " a", "- y"])
    yield lead("a block that isn't read, with a bad first column", block("FILE/COMMENT", "ABC text"), "in:3 FirstColumn")
    yield lead("a block that isn't read, with another title in it", ["+A", "+B", "-B", "-A"], "in:3 Nested")
    yield lead("a block that isn't read, ended by a longer name", ["+A", "-AB"], "in:3 WrongEnd")
    yield Case("a block that isn't read, without an end", joined(ONE_LINES[:-1] + ["+A", " a", "%ENDSNX"]), "in:13 NoEnd")
    yield lead("a name up to column 80", ["+" + "A" * 79 + "B", "-" + "A" * 79 + "C"])
    yield one("a title in lower case", {2: ONE_LINES[1].lower(), 4: ONE_LINES[3].lower()}, "block file:in SOLUTION/APRIORI")
    yield one("a title with a text behind it", {2: ONE_LINES[1] + " anything", 5: ONE_LINES[4] + "\tL COVA"})
    yield Case(
        "comments and blanks everywhere", joined([it for line in ONE_LINES for it in (line, "", "*", " \t", "* -x")][:-4]), ONE_REPORT
    )


# ---- rows


def rows():
    for text in ("     ", "    0", "00000", "   -1", "   +1", "  1.0", "  1 2", "  0x1", "    a", "  \xb9 ", "\x001   "):
        yield one_put(f"index {text!r}", 3, 2, text, "in:3 Index")
    yield one_put("the index a column to the right", 3, 2, "     1", "in:3 Index")
    for text in ("00001", "1    ", "99999", "\t\t1\t ", "  7  "):
        yield one_put(f"index {text!r} in the a priori row", 3, 2, text)
    yield one_put("the vector's index is another", 6, 2, "00002", "in:9 Index")
    yield from names_of_rows()
    yield from epochs_of_rows()
    yield from values()
    yield from repeated_rows()
    yield from orders_on_a_row()


def names_of_rows():
    yield one_put("no type", 3, 8, "      ", "in:3 Field")
    yield one_put("a type of tabs", 6, 8, "\t\t\t\t\t\t", "in:6 Field")
    for first, byte in ((9, "\x7f"), (16, "\x1f"), (20, "\x80"), (24, "\xe4"), (16, "\t"), (9, "\x00"), (42, "\x7f"), (41, "\xff")):
        yield one_put(
            f"byte {ord(byte)} in column {first}",
            3,
            first,
            f"{byte}x" if byte == "\t" or first in (20, 24, 41, 42) else byte,
            "in:3 Field",
        )
    for number, wants in ((3, "unmatched file:in " + ONE_NAME), (6, "unmatched file:in stax/ABCD/A/1/24:001:00000")):
        yield one_put(f"a type in lower case at line {number}", number, 8, "stax", wants)
    both = [(8, "a ~!\\", "a ~!\\/ABCD/A/1/24:001:00000"), (15, "    ", "STAX//A/1/24:001:00000"), (20, "  ", "STAX/ABCD//1/24:001:00000")]
    both += [
        (20, "B ", "STAX/ABCD/B/1/24:001:00000"), (23, "    ", "STAX/ABCD/A//24:001:00000"), (23, "----", "STAX/ABCD/A/----/24:001:00000")
    ]
    both += [
        (23, "0000", "STAX/ABCD/A/0/24:001:00000"),
        (23, "01A ", "STAX/ABCD/A/01A/24:001:00000"),
        (15, "A  D", "STAX/A  D/A/1/24:001:00000"),
    ]
    for first, text, name in both:
        both_rows = {n: put(ONE_LINES[n - 1], first, text) for n in (3, 6)}
        yield one(f"{text!r} in column {first} of both rows", both_rows, None)
        yield one_put(f"{text!r} in column {first} of the vector row", 6, first, text, f"unmatched file:in {name}")
    for text in ("0001", "001 ", "1   ", " 1  ", "\t1\t\t", "  01"):
        yield one_put(f"solution {text!r} in the vector row", 6, 23, text)
    yield one_put("solution 2 in the vector row", 6, 23, "   2", "unmatched file:in STAX/ABCD/A/2/24:001:00000")
    yield one_put("solution 1.0 in the vector row", 6, 23, " 1.0", "unmatched file:in STAX/ABCD/A/1.0/24:001:00000")
    yield one_put("the type one column to the right", 6, 8, " STAX")
    yield one_put("the point at the left", 6, 20, "A ")
    yield one("tabs between all columns of a row", {6: ONE_LINES[5].replace(" ", "\t")})
    yield one_put("texts in columns that aren't read", 6, 45, "\x00x\xff")
    yield one_put("no unit", 3, 41, " ", ONE_REPORT.replace(" m    ", "      "))
    yield one_put("a unit of four letters", 3, 41, "m/ y", ONE_REPORT.replace(" m    ", " m/ y "))
    yield one_put("another unit in the vector row", 6, 41, "mm")


def epochs_of_rows():
    for text in (
        "24:000:00000",
        "24:367:00000",
        "23:366:00000",
        "24:001:86401",
        "24:001:99999",
        "24:1:0",
        "24-001-00000",
        "50:366:00000",
        "00:000:00001",
    ):
        yield one_put(f"epoch {text!r}", 3, 28, text, "in:3 Epoch")
    for text in (
        "50:365:86400", "24:001:0000 ", "24:001:+0000", "24:001: 0000", "2024:001:000", "24:001:0000\xb2", "00:001      ", "0           "
    ):
        yield one_put(f"epoch {text!r}", 6, 28, text, "in:6 Epoch")
    same = [
        ("24:001:86400", "24:002:00000"),
        ("23:365:86400", "24:001:00000"),
        ("50:365:86399", "50:365:86399"),
        ("51:001:00000", "51:001:00000"),
    ]
    same += [
        ("00:000:00000", " " * 12), ("24:366:86400", "25:001:00000"), ("99:365:86400", "00:001:00000"), ("00:366:00000", "00:366:00000")
    ]
    for first, second in same:
        both = {3: put(ONE_LINES[2], 28, first), 6: put(ONE_LINES[5], 28, second)}
        printed = "00:000:00000" if second == " " * 12 else second
        yield one(f"epochs {first!r} and {second!r}", both, ONE_REPORT.replace("24:001:00000", printed))
    yield one_put("the vector at no epoch", 6, 28, " " * 12, "unmatched file:in STAX/ABCD/A/1/00:000:00000")
    yield one_put("the vector at the next day", 6, 28, "24:001:86400", "unmatched file:in STAX/ABCD/A/1/24:002:00000")


def values():
    for text in (
        "",
        "1E",
        "1.2.3",
        "x",
        "1" * 19,
        "1E61",
        "1E-401",
        "1E1000",
        "0E1000",
        ".",
        "-",
        "+-1",
        "1 2",
        "1e+",
        "E5",
        "1,5",
        "0x1",
        "1D+",
        "inf",
        "1\x00",
    ):
        yield one_value(f"a priori value {text!r}", 3, text, "in:3 Number")
        yield one_value(f"vector value {text!r}", 6, text, "in:6 Number")
    for text in (
        ".100000000000000E+01",
        "0.1D+01",
        "1.0E0",
        "1",
        "1.",
        "+1",
        ".1+1",
        "10-1",
        "0001",
        "1.000000000000000000",
        "1e0",
        "1d-0",
        "100e-00002",
        "\t1 ",
    ):
        yield one_value(f"a priori value {text!r}", 3, text)
    for text in ("2.", "+2", "2d0", ".2+1", "20-1", "000000000000000000002", "2.00000000000000000E0", ".0000000000000002E16"):
        yield one_value(f"vector value {text!r}", 6, text)
    yield one_value("a vector value over 10^61 by its zeros", 6, "10E60", "in:6 Number")
    yield one_value("a vector value of 10^60", 6, ".1E+61", f"range file:in {ONE_NAME} {ONE_NAME}")
    for text, wants in (("100E-402", ONE_REPORT), ("10E-402", "in:3 Number"), ("10E60", "in:3 Number"), (".1E+61", ONE_REPORT)):
        yield one_put(f"deviation {text!r}", 3, 70, f"{text:>11}", wants)
    yield one_value("a priori value 10^12", 3, "1E12", None)
    yield one_value("a priori value -10^12", 3, "-1E12", None)
    for text in ("1000000000001", "-1000000000001", ".100000000000100E+13", "1E60", "1000000000000.00001"):
        yield one_value(f"a priori value {text!r}", 3, text, "in:3 Size")
    yield one_value("vector value of 21 digits, one of them not 0", 6, "200000000000000000000", f"range file:in {ONE_NAME} {ONE_NAME}")
    for text in (".500000E+00", "", "-.0E+00", "0", "-0", "1E60", "1", ".5-10", "1E-400"):
        yield one_put(f"deviation {text!r}", 3, 70, f"{text:>11}")
    for text in ("-1", "-.1E-399", "x", "1E61", "1E", "-", "0E1000"):
        yield one_put(f"deviation {text!r}", 3, 70, f"{text:>11}", "in:3 Number")
    yield one_put("a deviation that is no number, in the vector row", 6, 70, "          x")
    yield one_put("text in column 69", 3, 69, "9")
    yield one_put("a value that goes on in column 69", 6, 66, "5555", None)


def repeated_rows():
    yield pair("an index twice", {4: row(1, "STAY", "ABCD", "2")}, "in:4 Repeated")
    yield pair("an index twice, once with zeros", {4: put(PAIR_LINES[3], 2, "00001")}, "in:4 Repeated")
    yield pair("a name twice", {4: row(2, "STAX", "ABCD", "2")}, "in:4 Repeated")
    yield pair("a name twice in the vector", {8: bare(2, "STAX", "ABCD", "2")}, "in:8 Repeated")
    yield pair("a name twice, by solutions 0001 and 1", {4: row(2, "STAX", "ABCD", "2", solution="0001")}, "in:4 Repeated")
    pairs = {3: row(1, "STAX", "ABCD", "2", epoch="24:001:86400"), 4: row(2, "STAX", "ABCD", "2", epoch="24:002:00000")}
    yield pair("a name twice, by two forms of an epoch", pairs, "in:4 Repeated")
    pairs = {3: row(1, "STAX", "ABCD", "2", epoch=""), 4: row(2, "STAX", "ABCD", "2", epoch="00:000:00000")}
    yield pair("a name twice, by no epoch and zeros", pairs, "in:4 Repeated")
    yield pair("a line twice", {3: [PAIR_LINES[2]] * 2}, "in:4 Repeated")
    many = [row(k, "STAX", f"{k:04}", "1") for k in range(1, 1002)]
    yield lead("1,001 estimates", block("SOLUTION/ESTIMATE", *many), "in:1003 TooMany")
    yield lead("1,000 estimates", block("SOLUTION/ESTIMATE", *many[:1000]))
    yield lead("1,000 estimates and one twice", block("SOLUTION/ESTIMATE", *many[:1000], many[17]), "in:1003 Repeated")
    yield lead(
        "1,000 estimates and a bad one", block("SOLUTION/ESTIMATE", *many[:1000], put(many[1000], 48, f"{'x':>21}")), "in:1003 Number"
    )


def orders_on_a_row():
    faults = [
        ("Index", 2, "    x"),
        ("Field", 8, "      "),
        ("Epoch", 28, "24:000:00000"),
        ("Field", 41, "\x7f"),
        ("Number", 48, f"{'x':>21}"),
        ("Number", 70, "-1         "),
    ]
    for k, (first, column, text) in enumerate(faults):
        for second, other, more in faults[k + 1 :]:
            line = put(put(ONE_LINES[2], column, text), other, more)
            yield one(f"{first} in column {column} and {second} in column {other}", {3: line}, f"in:3 {first}")
    line = put(put(ONE_LINES[2], 48, f"{'1E13':>21}"), 70, "          x")
    yield one("Size and a deviation that is no number", {3: line}, "in:3 Size")
    yield one("Size after a bad unit", {3: put(put(ONE_LINES[2], 48, f"{'1E13':>21}"), 41, "\x7f")}, "in:3 Field")
    again = put(PAIR_LINES[2], 70, "         -1")
    yield pair("Number and Repeated on a line", {4: again}, "in:4 Number")
    yield pair("Size and Repeated on a line", {4: put(PAIR_LINES[2], 48, f"{'1E13':>21}")}, "in:4 Size")
    yield pair("faults on two lines", {4: put(PAIR_LINES[3], 48, f"{'x':>21}"), 8: put(PAIR_LINES[7], 2, "    x")}, "in:4 Number")
    yield pair("a fault on a line, and no end", {4: put(PAIR_LINES[3], 48, f"{'x':>21}"), 5: []}, "in:4 Number")
    yield pair("a fault on a line, and no footer", {8: put(PAIR_LINES[7], 48, f"{'x':>21}"), 14: []}, "in:8 Number")
    yield pair("a bad line, and a bad row after it", {3: "x", 4: put(PAIR_LINES[3], 2, "    x")}, "in:3 FirstColumn")
    yield pair("a bad row in a block without its title", {2: [], 3: put(PAIR_LINES[2], 2, "    x")}, "in:2 FirstColumn")


# ---- matrices


def matrices():
    for title in ("", "X", "l", "u", "L L", "L COVA", "COVA", "LU", "L U", "U INFO", "L,", "\xccL"):
        yield pair_matrix(f"title {title!r}", title, PAIR_MATRIX[1:-1], "in:10 Field")
    yield pair_matrix("a title with more blanks", "\t  L\t ", PAIR_MATRIX[1:-1])
    yield from solution_matrices()
    yield from missing_rows()
    yield from matrix_lines()
    yield from gaps()


def solution_matrices():
    rows = block("SOLUTION/ESTIMATE", row(1, "STAX", "ABCD", "1.5"), row(2, "STAY", "ABCD", "2.5"))
    for title in ("L COVA", "U CORR", "L INFO", "U  COVA\t"):
        yield Case(
            f"an estimate's matrix {title!r}",
            joined(after(PAIR_LINES, 1, *rows, *block(f"SOLUTION/MATRIX_ESTIMATE {title}", strip(1, 1, "1")))),
            PAIR_REPORT,
        )
        yield Case(
            f"an a priori matrix {title!r}",
            joined(after(PAIR_LINES, 5, *block(f"SOLUTION/MATRIX_APRIORI {title}", strip(1, 1, "1")))),
            PAIR_REPORT,
        )
    for title in ("", "L", "U", "COVA L", "L COVA more", "L cova", "L VARI", "COVA", "INFO", "L L", "L COVA COVA", "X INFO"):
        words = f" {title}".rstrip()
        yield Case(
            f"an estimate's matrix {title!r}",
            joined(after(PAIR_LINES, 1, *rows, *block(f"SOLUTION/MATRIX_ESTIMATE{words}"))),
            "in:6 Field",
        )
        yield Case(f"an a priori matrix {title!r}", joined(after(PAIR_LINES, 5, *block(f"SOLUTION/MATRIX_APRIORI{words}"))), "in:6 Field")
    bad = block("SOLUTION/MATRIX_APRIORI L INFO", strip(1, 1, "1"), strip(1, 2, "1"))
    yield Case("an a priori matrix above its diagonal", joined(after(PAIR_LINES, 5, *bad)), "in:8 Triangle")
    other = block("SOLUTION/ESTIMATE", row(7, "STAX", "ABCD", "1.5"))
    good = block("SOLUTION/MATRIX_ESTIMATE L COVA", strip(7, 7, "1"))
    yield Case("each matrix has the indices of its own rows", joined(after(PAIR_LINES, 1, *other, *good)), PAIR_REPORT)
    bad = block("SOLUTION/MATRIX_ESTIMATE L COVA", strip(1, 1, "1"))
    yield Case("an estimate's matrix with an a priori index", joined(after(PAIR_LINES, 5, *other, *bad)), "in:10 Index")
    document = whole(
        PAIR_APRIORI,
        block("SOLUTION/ESTIMATE", row(1, "STAX", "ABCD", "1.5")),
        block("SOLUTION/MATRIX_ESTIMATE L COVA", strip(1, 1, ".25")),
    )
    yield Case("estimates and a covariance alone", joined(document), None)
    yield Case("estimates and a correlation alone", joined(document).replace(b"L COVA", b"L CORR"), None)


def missing_rows():
    yield Case("a matrix before its rows", joined(whole(PAIR_APRIORI, PAIR_MATRIX, PAIR_VECTOR)), "in:6 MissingBlock")
    yield Case("a matrix first", joined(whole(PAIR_MATRIX, PAIR_APRIORI, PAIR_VECTOR)), "in:2 MissingBlock")
    yield Case("a matrix without rows", joined(whole(PAIR_APRIORI, PAIR_MATRIX)), "in:6 MissingBlock")
    yield Case("a matrix without rows, and a bad title", joined(whole(PAIR_APRIORI, block(NORMAL))), "in:6 MissingBlock")
    yield Case(
        "an estimate's matrix without estimates",
        joined(whole(PAIR_APRIORI, block("SOLUTION/MATRIX_ESTIMATE L COVA"))),
        "in:6 MissingBlock",
    )
    yield Case(
        "an a priori matrix after estimates alone",
        joined(whole(block("SOLUTION/ESTIMATE"), block("SOLUTION/MATRIX_APRIORI L COVA"))),
        "in:4 MissingBlock",
    )
    yield Case("a matrix title in the block of its rows", joined(changed(PAIR_LINES, {8: PAIR_LINES[9]})), "in:8 Nested")
    yield Case("the a priori values last", joined(whole(PAIR_VECTOR, PAIR_MATRIX, PAIR_APRIORI)), PAIR_REPORT)
    yield Case("the a priori values between", joined(whole(PAIR_VECTOR, PAIR_APRIORI, PAIR_MATRIX)), PAIR_REPORT)
    for k, it in enumerate((PAIR_APRIORI, PAIR_VECTOR, PAIR_MATRIX)):
        yield Case(f"a second title: {it[0]}", joined(after(PAIR_LINES, 13, *it)), "in:14 Repeated")
    yield Case("a second title without its words", joined(after(PAIR_LINES, 13, *block(NORMAL))), "in:14 Repeated")
    yield Case("a second title in a block", joined(changed(PAIR_LINES, {8: "+SOLUTION/APRIORI"})), "in:8 Nested")
    yield Case("a second title, each block empty", joined(whole(block("SOLUTION/APRIORI"), block("SOLUTION/APRIORI"))), "in:4 Repeated")


def matrix_lines():
    for text in ("     ", "    0", "    3", "   -1", "    x", "99999", "1.   "):
        yield pair_put(f"a matrix row {text!r}", 12, 2, text, "in:12 Index")
        yield pair_put(f"a matrix column {text!r}", 12, 8, text, "in:12 Index")
    yield pair_matrix(
        "indices with zeros and at the left",
        "L",
        ["00001 00001 " + f"{'4':>21}".join(["", ""]), put(put(strip("", "", "1", "5"), 2, "2"), 8, "001  ")],
        None,
    )
    yield pair_matrix("three values, none zero", "L", [strip(1, 1, "4"), strip(2, 1, "1", "5", "6")], "in:12 Index")
    yield pair_matrix("three values, the third zero", "L", [strip(1, 1, "4"), strip(2, 1, "1", "5", "0.0")])
    yield pair_matrix("three values, the third no number", "L", [strip(1, 1, "4"), strip(2, 1, "1", "5", "x")], "in:12 Number")
    yield pair_matrix("a value above the diagonal", "L", [strip(1, 1, "4", "1"), strip(2, 1, "1", "5")], "in:11 Triangle")
    yield pair_matrix("a zero above the diagonal", "L", [strip(1, 1, "4", ".0E+00"), strip(2, 1, "1", "5")])
    yield pair_matrix("a value below the diagonal", "U", [strip(1, 1, "4"), strip(2, 1, "1", "5")], "in:12 Triangle")
    yield pair_matrix("a zero below the diagonal", "U", [strip(1, 1, "4", "1"), strip(2, 1, "-0", "5")])
    yield pair_matrix("an upper triangle", "U", [strip(1, 1, "4", "1"), strip(2, 2, "5")])
    yield pair_matrix("an upper triangle, the last line first", "U", [strip(2, 2, "5"), strip(1, 2, "1"), strip(1, 1, "4")])
    yield pair_matrix("an element twice", "L", [strip(1, 1, "4"), strip(1, 1, "4")], "in:12 Repeated")
    yield pair_matrix(
        "an element twice, and other lines between", "L", [strip(1, 1, "4"), strip(2, 1, "1", "5"), "", strip(2, 2, "5")], "in:14 Repeated"
    )
    yield pair_matrix(
        "a zero twice, and then a value",
        "L",
        [strip(1, 1, "0"), strip(1, 1, "0"), strip(1, 1, "4"), strip(1, 1, "0"), strip(2, 1, "1", "5")],
    )
    yield pair_matrix(
        "an element twice, by a value between two zeros",
        "L",
        [strip(1, 1, "4"), strip(2, 1, "1", "5"), strip(2, 1, "0", "-5", "0")],
        "in:13 Repeated",
    )
    yield pair_matrix("lines in another order", "L", [strip(2, 2, "5"), strip(2, 1, "1"), strip(1, 1, "4")])
    yield pair_matrix("values left out by blanks", "L", [strip(1, 1, "4"), strip(2, 1, "", "5"), strip(2, 1, "1")])
    yield pair_matrix("the second value alone", "L", [strip(1, 1, "4"), strip(2, 1, "1"), strip(2, 1, "", "5", "")])
    yield pair_matrix("a line without values", "L", [strip(1, 1, "4"), strip(1, 2), strip(2, 1, "1", "5")])
    yield pair_matrix("a line without values and with a bad column", "L", [strip(1, 1, "4"), strip(1, 3)], "in:12 Index")
    yield pair_matrix("a column past all indices, its value zero", "L", [strip(1, 1, "4"), strip(2, 2, "5", "0", "0"), strip(2, 1, "1")])
    yield pair_matrix("exponents of many forms", "L", [strip(1, 1, ".4D+01"), strip(2, 1, "10-1", "+5.d0")])
    yield pair_matrix(
        "texts between the columns",
        "L",
        [put(strip(1, 1, "4"), 13, "9"), put(put(put(strip(2, 1, "1", "5", ""), 7, "7"), 35, "x"), 79, "12")],
    )
    yield pair_matrix("Number before Triangle", "L", [strip(1, 1, "x", "1")], "in:11 Number")
    yield pair_matrix("Triangle before Number", "L", [strip(1, 1, "4", "1", "x")], "in:11 Triangle")
    yield pair_matrix("Index before Number", "L", [strip(1, 2, "", "9", "x")], "in:11 Index")
    yield pair_matrix("Repeated before Number", "L", [strip(1, 1, "4"), strip(1, 1, "4", "x")], "in:12 Repeated")
    yield pair_matrix("Index before Triangle", "U", [strip(2, 2, "5"), strip(2, 1, "", "", "3")], "in:12 Index")
    yield pair_matrix("no line at all", "L", [], "pivot stack STAX/ABCD/A/1/24:001:00000")


def gaps():
    yield gap("indices with a gap", (5, 10), [strip(5, 5, "4"), strip(10, 5, "1"), strip(10, 10, "5")])
    yield gap("indices with a gap, a value at an index that isn't there", (5, 10), [strip(10, 5, "1", "5")], "in:11 Index")
    yield gap("indices that fall", (2, 1), [strip(1, 1, "5"), strip(2, 1, "1", "4")])
    yield gap("indices that fall, above the diagonal", (2, 1), [strip(1, 2, "1")], "in:11 Triangle")
    yield gap("indices that fall, in an upper triangle", (2, 1), [strip(1, 1, "5", "1"), strip(2, 2, "4")], triangle="U")
    yield gap("the greatest index", (99999, 7), [strip(99999, 99999, "4"), strip(99999, 7, "1"), strip(7, 7, "5")])
    yield gap("a column past the greatest index", (99999, 7), [strip(99999, 99999, "4", "1")], "in:11 Index")
    yield gap("a zero past the greatest index", (99999, 7), [strip(99999, 99999, "4", "0", "0"), strip(99999, 7, "1"), strip(7, 7, "5")])
    vector = block("SOLUTION/NORMAL_EQUATION_VECTOR", bare(3, "STAX", "ABCD", "2"), bare(4, "STAY", "ABCD", "1"))
    matrix = block(f"{NORMAL} L", strip(3, 3, "4"), strip(4, 3, "1", "5"))
    yield Case("other indices in the vector than in the a priori rows", joined(whole(PAIR_APRIORI, vector, matrix)), PAIR_REPORT)


# ---- sites and epochs


def sites():
    good = [
        " ABCD  A 12345M001 P Somewhere, with \xe4\xff   15 25 10.5  47 04  1.7   538.3  and past column 80",
        " EFGH",
        "\t",
        "  x",
        " ABCD  A again",
    ]
    yield lead("sites", block("SITE/ID", *good))
    for line in (" AB\x7fD  A", " AB\tD  A", " ABCD \x80 ", " ABCD  \x01"):
        yield lead(f"site {line!r}", block("SITE/ID", " GOOD  A", line), "in:4 Field")
    yield lead("sites twice", block("SITE/ID") * 2, "in:4 Repeated")
    row = " ABCD  A    1 P 24:001:00000 24:002:00000 24:001:43200"
    rows = [
        row, " ABCD  A 0001   24:001:00000 24:001:86400", " ABCD", put(row, 15, "\t"), "\t" + row[1:], put(row, 9, "\x00"), row + " \xff"
    ]
    yield lead("epochs", block("SOLUTION/EPOCHS", *rows))
    for first, byte in ((3, "\x7f"), (7, "\x80"), (11, "\x00x"), (15, "\xe4"), (15, "\x7f")):
        yield lead(
            f"byte {ord(byte[0])} in column {first} of an epoch's row", block("SOLUTION/EPOCHS", row, put(row, first, byte)), "in:4 Field"
        )
    for first in (17, 30, 43):
        for text in ("24:000:00000", "24:1:0", "50:366:00000", "24:001:86401", "           x"):
            yield lead(f"{text!r} in column {first} of an epoch's row", block("SOLUTION/EPOCHS", put(row, first, text)), "in:3 Epoch")
    yield lead("Field and Epoch on an epoch's row", block("SOLUTION/EPOCHS", put(put(row, 15, "\x7f"), 17, "x")), "in:3 Field")
    yield lead("an epoch's columns one to the right", block("SOLUTION/EPOCHS", row[:16] + " " + row[16:]), "in:3 Epoch")
    yield lead("epochs twice", block("SOLUTION/EPOCHS") * 2, "in:4 Repeated")
    yield lead("epochs after sites", block("SITE/ID", " ABCD  A") + block("SOLUTION/EPOCHS", row))


# ---- what solve answers to a document that is read


def answers():
    yield Case("no a priori values", joined(whole(PAIR_VECTOR, PAIR_MATRIX)), "block file:in SOLUTION/APRIORI")
    yield Case("a block of no row", joined(whole(block("SOLUTION/APRIORI"))), "block file:in SOLUTION/ESTIMATE")
    yield Case("a priori values alone", joined(whole(PAIR_APRIORI)), "block file:in SOLUTION/ESTIMATE")
    yield Case("no matrix", joined(whole(PAIR_APRIORI, PAIR_VECTOR)), "block file:in SOLUTION/ESTIMATE")
    yield Case(
        "no matrix, and another name",
        joined(whole(PAIR_APRIORI, block("SOLUTION/NORMAL_EQUATION_VECTOR", bare(1, "STAZ", "ABCD", "1")))),
        "block file:in SOLUTION/ESTIMATE",
    )
    empty = block("SOLUTION/NORMAL_EQUATION_VECTOR"), block(f"{NORMAL} U")
    yield Case("no row at all", joined(whole(PAIR_APRIORI, *empty)), "empty file:in")
    yield Case("three empty blocks", joined(whole(block("SOLUTION/APRIORI"), *empty)), "empty file:in")
    yield pair("no a priori row of a name", {4: []}, "unmatched file:in STAY/ABCD/A/1/24:001:00000")
    yield pair(
        "no a priori row of two names, the greater first",
        {3: [], 4: [], 7: PAIR_LINES[7], 8: PAIR_LINES[6]},
        "unmatched file:in STAY/ABCD/A/1/24:001:00000",
    )
    yield pair("no a priori row of two names, the lesser first", {3: [], 4: []}, "unmatched file:in STAX/ABCD/A/1/24:001:00000")
    yield pair("an a priori row more", {4: [PAIR_LINES[3], row(3, "STAZ", "ABCD", "9")]}, PAIR_REPORT)
    yield pair("the a priori rows in another order", {3: PAIR_LINES[3], 4: PAIR_LINES[2]}, PAIR_REPORT)
    yield pair("the vector's rows in another order", {7: PAIR_LINES[7], 8: PAIR_LINES[6]}, PAIR_REPORT)
    yield pair("two units", {4: row(2, "STAY", "ABCD", "2", unit="mas")}, None)
    yield from name_order()
    yield from scales()
    yield from extremes()


def name_order():
    base = {"kind": "STAX", "code": "ABCD"}
    yield network("names by solution, as texts", [base | {"solution": it} for it in ("10", "2", "1", "", "-", "A", "0")])
    epochs = ("24:001:00000", "", "99:365:86399", "51:001:00000", "24:001:00001", "00:001:00000", "50:365:00000")
    yield network("names by epoch", [base | {"epoch": it} for it in epochs])
    yield network("names by point", [base | {"point": it} for it in ("B", "", "A", "AA", "a", "~", "!")])
    yield network("names by code", [base | {"code": it} for it in ("ABCE", "", "abcd", "ABC", "A", "A B", "0001", "~~~~")])
    kinds = ("STAZ", "VELX", "STAX", "XPO", "UT", "LOD", "TROTOT", "S", "STAX!", "STA", "~")
    yield network("names by type", [base | {"kind": it} for it in kinds])
    fields = itertools.product("BA", "BA", "BA", "21", ("24:002:00000", "24:001:00000"))
    names = [dict(zip(("kind", "code", "point", "solution", "epoch"), it)) for it in fields]
    yield network("names by all fields", names)


def scales():
    sky = {"code": "0001", "unit": "rad"}
    for kinds in (("RS_RA", "RS_DE"), ("RS_DE", "STAX", "RS_RA"), ("RS_RA", "rs_ra", "RS_DEX", "RS_R")):
        names = [sky | {"kind": kind} for kind in kinds]
        yield network(f"{' '.join(kinds)} in radians", names, vector="3.5E+08", apriori="-.123456789012345678", diagonal=".25E+17")
        yield network(f"{' '.join(kinds)} with small numbers", names, vector=".5", apriori="1", diagonal="4")
    for kind in ("RS_RA", "RS_DE"):
        line = f"     1 {kind}  0001  A    1 24:001:00000 rad  1.1250000000000000 1.1250000000000000 0E-29\n"
        report = "".join(ONE_REPORT.splitlines(True)[:2]) + line + "END\n"
        yield network(f"{kind} alone", [sky | {"kind": kind}], report, vector=".5")
    name = "RS_RA/0001/A/1/24:001:00000"
    names = [sky | {"kind": "RS_RA"}]
    yield network("the greatest diagonal of RS_RA", names, vector="1E+20", diagonal="1E+28")
    yield network("the greatest diagonal and right side of RS_RA", names, vector="1E+22", diagonal="1E+28")
    yield network("a diagonal of RS_RA past its bound", names, f"range file:in {name} {name}", diagonal="1.000000000000001E+28")
    yield network("a right side of RS_RA past its bound", names, f"range file:in {name} {name}", vector="-1.00000000000001E+22")
    rows = block("SOLUTION/APRIORI", row(1, "STAX", "ABCD", "1"), row(2, "RS_RA", "0001", "1"))
    vector = block("SOLUTION/NORMAL_EQUATION_VECTOR", bare(1, "STAX", "ABCD", "7E5"), bare(2, "RS_RA", "0001", "3E10"))
    for value, wants in (
        ("1E22", None), ("1.000000000000001E22", f"range file:in {ONE_NAME} {name}"), ("-3.75E11", None), (".123456789012345678", None)
    ):
        matrix = block(f"{NORMAL} L", strip(1, 1, "1E10"), strip(2, 1, value, "1E20"))
        yield Case(f"{value} between a coordinate and RS_RA", joined(whole(rows, vector, matrix)), wants)


def extremes():
    zero = put(ONE_LINES[5], 48, f"{'0':>21}")
    twice = f"{ONE_NAME} {ONE_NAME}"
    numbers = [
        ("0.10000000000000E+17", ONE_REPORT.replace("1.5000", "1.0000").replace("0E-29", "0E-22")),
        (".10000000000001E+17", f"range file:in {twice}"),
    ]
    numbers += [
        (".1E-399", f"defect stack {ONE_NAME} 1073741824"), ("-.1E-399", f"pivot stack {ONE_NAME}"), ("-1E16", f"range stack {twice}")
    ]
    numbers += [("-10000000000000001", f"range file:in {twice}"), (".1E+61", f"range file:in {twice}"), ("0", f"pivot stack {ONE_NAME}")]
    for value, wants in numbers:
        yield one(f"matrix value {value} and vector 0", {6: zero, 9: put(ONE_LINES[8], 14, f"{value:>21}")}, wants)
    yield one_value("matrix value .1E+62", 9, ".1E+62", "in:9 Number")
    yield one("matrix 1, vector .2E+08", {6: put(ONE_LINES[5], 48, f"{'.2E+08':>21}"), 9: strip(1, 1, "1")}, f"range stack {twice}")
    yield one_value("vector 1E16", 6, "1E16", None)
    yield one_value("vector past 1E16", 6, "1.000000000000001E16", f"range file:in {twice}")
    yield one_value("vector -1E60", 6, "-1E60", f"range file:in {twice}")
    yield one_value("vector 1E-400", 6, "1E-400", None)
    yield one_value("a priori 1E-400", 3, "1E-400", None)
    other = "STAY/ABCD/A/1/24:001:00000"
    great, greater = "1E16", "1.000000000000001E16"
    yield pair_matrix(
        "past the bound: the table before the right side",
        "L",
        [strip(1, 1, "4"), strip(2, 1, greater, greater)],
        f"range file:in {other} {ONE_NAME}",
    )
    yield pair_matrix(
        "past the bound: the diagonal", "L", [strip(1, 1, "4"), strip(2, 1, great, "-" + greater)], f"range file:in {other} {other}"
    )
    both = {7: bare(1, "STAX", "ABCD", "1E17"), 8: bare(2, "STAY", "ABCD", "1E17")}
    yield pair("past the bound: two of the right side", both, f"range file:in {twice}")
    yield pair(
        "past the bound: the right side, and the last of the table",
        both | {12: strip(2, 1, "1", "1E17")},
        f"range file:in {other} {other}",
    )
    yield pair(
        "past the bound, the names in another order than the rows",
        {7: bare(1, "STAY", "ABCD", "1E17"), 8: bare(2, "STAX", "ABCD", "1E17")},
        f"range file:in {twice}",
    )
    yield pair_matrix("rows that differ too little", "L", [strip(1, 1, "4"), strip(2, 1, "4", "4")], f"pivot stack {other}")
    yield pair_matrix("near to singular", "L", [strip(1, 1, "1000000"), strip(2, 1, "999999", "1000000")], None)
    yield pair_matrix("not positive", "L", [strip(1, 1, "1"), strip(2, 1, "2", "1")], f"pivot stack {other}")
