#!/usr/bin/env python3
"""Control files, and what the program says of each.

`CASES` has a row for each: a name, the bytes of the control file, and what must come: the line that the program says, without the
program's name before it, or None where the file is a control. The line is `control syntax` where the text is no UTF-8 or no TOML,
and else `control CAUSE PATH`, where CAUSE is key, kind, value, repeated or toomany, and PATH the key of the first fault.

    control_files.py             prints the name of each case and what must come
    control_files.py NAME        writes the control file of that name
"""

import sys

OUTPUT = "[output]\nagency = 'IGN'\ncreated = '26:001:00000'\n"
FILE = "[[file]]\nname = 'a'\n"
BASE = OUTPUT + FILE
# the table `output` in one line, which other keys of the top table may follow
HEADER = "output = { agency = 'IGN', created = '26:001:00000' }\n"

SITE = "['ABCD', 'A', '1']"
DATUM = f"[datum]\nsites = [{SITE}]\nscale = '1'\n"
PARAM = "['STAX', 'ABCD', 'A', '1', '26:001:00000']"
REDUCE = f"[[reduce]]\nat = 'end'\nparam = {PARAM}\n"


def output(rest, agency="agency = 'IGN'\n", created="created = '26:001:00000'\n"):
    """A control file with these lines in its table `output`."""
    return f"[output]\n{agency}{created}{rest}{FILE}"


def file(rest, name="name = 'a'\n"):
    """One whose only file has these lines."""
    return f"{OUTPUT}[[file]]\n{name}{rest}"


def datum(sites, rest="scale = '1'\n"):
    """One with a datum over these sites."""
    return f"{BASE}[datum]\nsites = {sites}\n{rest}"


def reduce(at, param=PARAM, of=""):
    """One with a file `a` in a group `g`, and a reduction."""
    return f"{BASE}group = 'g'\n[[reduce]]\nat = {at}\n{of}param = {param}\n"


def scale(rest):
    """One with these scale exponents."""
    return f"{BASE}[scale]\n{rest}"


def sites(count):
    """So many sites, each with another solution."""
    return "[" + ", ".join(f"['ABCD', 'A', '{k + 1}']" for k in range(count)) + "]"


TEXTS = [
    ("empty text", "", "control key output"),
    ("comment alone", "# nothing\n", "control key output"),
    ("key without a value", "a = ", "control syntax"),
    ("no TOML", "output\n", "control syntax"),
    ("a key twice", BASE + "name = 'b'\n", "control syntax"),
    ("a table twice", BASE + "[output]\n", "control syntax"),
    ("a text that does not end", BASE + "group = 'g\n", "control syntax"),
    ("no UTF-8", BASE.encode() + b"group = '\xff'\n", "control syntax"),
    ("fault before no TOML", "output = 1\na = \n", "control syntax"),
    ("least control", BASE, None),
    ("lines that end in CR LF", BASE.replace("\n", "\r\n"), None),
    ("tables in another order", FILE + DATUM + OUTPUT, None),
    ("tables in lines", HEADER + "file = [{ name = 'a' }]\n", None),
]

TOP = [
    ("unknown table", BASE + "[extra]\n", "control key extra"),
    ("unknown key at the top", "colour = 1\n" + BASE, "control key colour"),
    ("least of two unknown keys", "zebra = 1\napple = 1\n" + BASE, "control key apple"),
    ("capital before small", "apple = 1\nZebra = 1\n" + BASE, "control key Zebra"),
    ("unknown key before a missing table", "extra = 1\n", "control key extra"),
    ("no output", FILE, "control key output"),
    ("output is a number", "output = 1\n" + FILE, "control kind output"),
    ("output is a list of tables", "[[output]]\nagency = 'IGN'\n" + FILE, "control kind output"),
    ("kind of output before no file", "output = 1\n", "control kind output"),
    ("run is a number", "run = 1\n" + BASE, "control kind run"),
    ("run before no file", "run = 1\n" + OUTPUT, "control kind run"),
    ("no file", OUTPUT, "control key file"),
    ("file is a table", OUTPUT + "[file]\nname = 'a'\n", "control kind file"),
    ("file is a text", "file = 'a'\n" + OUTPUT, "control kind file"),
    ("file is a list of texts", "file = ['a']\n" + OUTPUT, "control kind file"),
    ("a file and a text", "file = [{ name = 'a' }, 'b']\n" + OUTPUT, "control kind file"),
    ("no entry of file", "file = []\n" + OUTPUT, "control value file"),
    ("64 files", OUTPUT + "".join(f"[[file]]\nname = 'f{k}'\n" for k in range(64)), None),
    ("65 files", OUTPUT + "".join(f"[[file]]\nname = 'f{k}'\n" for k in range(65)), "control toomany file"),
    ("65 files without a name", OUTPUT + "[[file]]\n" * 65, "control toomany file"),
    ("65 files before the datum", "datum = 1\n" + OUTPUT + "[[file]]\n" * 65, "control toomany file"),
    ("datum is a number", "datum = 1\n" + BASE, "control kind datum"),
    ("datum is a list of tables", BASE + "[[datum]]\nsites = []\n", "control kind datum"),
    ("datum before reduce", "datum = 1\nreduce = 1\n" + BASE, "control kind datum"),
    ("reduce is a table", BASE + "[reduce]\nat = 'end'\n", "control kind reduce"),
    ("reduce is a list of numbers", "reduce = [1]\n" + BASE, "control kind reduce"),
    ("no entry of reduce", "reduce = []\n" + BASE, None),
    ("reduce before scale", "reduce = 1\nscale = 1\n" + BASE, "control kind reduce"),
    ("scale is a number", "scale = 1\n" + BASE, "control kind scale"),
    ("scale is a list of tables", BASE + "[[scale]]\nSTAX = 0\n", "control kind scale"),
    ("60 keys of scale", scale("".join(f"T{k} = 0\n" for k in range(60))), None),
    ("61 keys of scale", scale("".join(f"T{k} = 0\n" for k in range(61))), "control value scale"),
    ("61 keys of scale before output", "[output]\n" + FILE + "[scale]\n" + "".join(f"T{k} = 0\n" for k in range(61)),
     "control value scale"),
    ("kind of scale before output", "scale = 1\n[output]\n" + FILE, "control kind scale"),
]

OUTPUTS = [
    ("unknown key of output", output("title = 'x'\n"), "control key output.title"),
    ("unknown key before a missing agency", output("title = 'x'\n", agency=""), "control key output.title"),
    ("no agency", output("", agency=""), "control key output.agency"),
    ("agency is a number", output("", agency="agency = 1\n"), "control kind output.agency"),
    ("agency of two bytes", output("", agency="agency = 'IG'\n"), "control value output.agency"),
    ("agency of four bytes", output("", agency="agency = 'IGNF'\n"), "control value output.agency"),
    ("agency with a blank", output("", agency="agency = 'I N'\n"), "control value output.agency"),
    ("agency past 126", output("", agency="agency = 'É1'\n"), "control value output.agency"),
    ("agency before created", output("", agency="agency = ''\n", created=""), "control value output.agency"),
    ("no created", output("", created=""), "control key output.created"),
    ("created is a date", output("", created="created = 2026-01-01\n"), "control kind output.created"),
    ("created is a list", output("", created="created = ['26:001:00000']\n"), "control kind output.created"),
    ("created of 11 bytes", output("", created="created = '26:001:0000'\n"), "control value output.created"),
    ("created of 13 bytes", output("", created="created = '26:001:00000 '\n"), "control value output.created"),
    ("created on no day of its year", output("", created="created = '26:366:00000'\n"), "control value output.created"),
    ("created on the last day of a leap year", output("", created="created = '24:366:00000'\n"), None),
    ("created at second 86400", output("", created="created = '26:001:86400'\n"), None),
    ("created past second 86400", output("", created="created = '26:001:86401'\n"), "control value output.created"),
    ("created past the last moment", output("", created="created = '50:365:86400'\n"), "control value output.created"),
    ("created with other marks", output("", created="created = '26-001-00000'\n"), "control value output.created"),
    ("created never", output("", created="created = '00:000:00000'\n"), None),
    ("created of 12 blanks", output("", created="created = '            '\n"), None),
    ("created of no byte", output("", created="created = ''\n"), "control value output.created"),
    ("technique is a number", output("technique = 1\n"), "control kind output.technique"),
    ("technique in small letters", output("technique = 'c'\n"), "control value output.technique"),
    ("technique of no letter", output("technique = ''\n"), "control value output.technique"),
    ("technique of two letters", output("technique = 'CC'\n"), "control value output.technique"),
    ("technique R", output("technique = 'R'\n"), None),
    ("content is a truth value", output("content = true\n"), "control kind output.content"),
    ("content of a digit", output("content = '1'\n"), "control value output.content"),
    ("technique before content", output("content = 1\ntechnique = ''\n"), "control value output.technique"),
    ("description is a number", output("description = 1\n"), "control kind output.description"),
    ("description of 60 bytes", output(f"description = '{'d' * 60}'\n"), None),
    ("description of 61 bytes", output(f"description = '{'d' * 61}'\n"), "control value output.description"),
    ("description of no byte", output("description = ''\n"), None),
    ("description with a tab", output('description = "a\\tb"\n'), "control value output.description"),
    ("output is a list", output("output = []\n"), "control kind output.output"),
    ("output past 126", output("output = 'é'\n"), "control value output.output"),
    ("contact is a number", output("contact = 1\n"), "control kind output.contact"),
    ("contact of 61 bytes", output(f"contact = '{'c' * 61}'\n"), "control value output.contact"),
    ("output before the run", output("technique = ''\n") + "[run]\nextra = 1\n", "control value output.technique"),
]

RUNS = [
    ("no key of run", BASE + "[run]\n", None),
    ("unknown key of run", BASE + "[run]\nthreads = 4\n", "control key run.threads"),
    ("reference is a number", BASE + "[run]\nreference = 1\n", "control kind run.reference"),
    ("reference before workers", BASE + "[run]\nworkers = 0\nreference = 1\n", "control kind run.reference"),
    ("reference is listed", BASE + "[run]\nreference = 'a'\n", None),
    ("reference is not listed", BASE + "[run]\nreference = 'b'\n", "control value run.reference"),
    ("reference of no byte", BASE + "[run]\nreference = ''\n", "control value run.reference"),
    ("value of the reference after workers", BASE + "[run]\nreference = 'b'\nworkers = 0\n", "control value run.workers"),
    ("workers is a text", BASE + "[run]\nworkers = '4'\n", "control kind run.workers"),
    ("workers is a float", BASE + "[run]\nworkers = 4.0\n", "control kind run.workers"),
    ("no worker", BASE + "[run]\nworkers = 0\n", "control value run.workers"),
    ("fewer than no worker", BASE + "[run]\nworkers = -1\n", "control value run.workers"),
    ("one worker", BASE + "[run]\nworkers = 1\n", None),
    ("16 workers", BASE + "[run]\nworkers = 16\n", None),
    ("17 workers", BASE + "[run]\nworkers = 17\n", "control value run.workers"),
    ("run before the files", file("weight = 1\n") + "[run]\nworkers = 0\n", "control value run.workers"),
]

FILES = [
    ("unknown key of a file", file("colour = 1\n"), "control key file.0.colour"),
    ("unknown key of the second file", BASE + "[[file]]\nname = 'b'\nsize = 1\n", "control key file.1.size"),
    ("unknown key before the name", file("colour = 1\n", name=""), "control key file.0.colour"),
    ("no name", file("", name=""), "control key file.0.name"),
    ("no name of the second file", BASE + "[[file]]\nweight = 1\n", "control key file.1.name"),
    ("name is a number", file("", name="name = 1\n"), "control kind file.0.name"),
    ("name of no byte", file("", name="name = ''\n"), "control value file.0.name"),
    ("name of 60 bytes", file("", name=f"name = '{'n' * 60}'\n"), None),
    ("name of 61 bytes", file("", name=f"name = '{'n' * 61}'\n"), "control value file.0.name"),
    ("name with a blank", file("", name="name = 'a b'\n"), "control value file.0.name"),
    ("name twice", BASE + FILE, "control repeated file.1.name"),
    ("third name as the first", BASE + "[[file]]\nname = 'b'\n" + FILE, "control repeated file.2.name"),
    ("name twice before its weight", BASE + FILE + "weight = 1\n", "control repeated file.1.name"),
    ("weight is a number", file("weight = 2\n"), "control kind file.0.weight"),
    ("weight is a list", file("weight = ['2']\n"), "control kind file.0.weight"),
    ("weight of no byte", file("weight = ''\n"), "control value file.0.weight"),
    ("weight is no decimal", file("weight = 'heavy'\n"), "control value file.0.weight"),
    ("weight 0", file("weight = '0'\n"), "control value file.0.weight"),
    ("weight 0.000", file("weight = '0.000'\n"), "control value file.0.weight"),
    ("negative weight", file("weight = '-1'\n"), "control value file.0.weight"),
    ("weight of 9 digits", file("weight = '0.00123456789'\n"), None),
    ("weight of 9 digits and zeros", file("weight = '1234567890000'\n"), None),
    ("weight of 10 digits", file("weight = '1234567891'\n"), "control value file.0.weight"),
    ("weight of 10 digits behind the point", file("weight = '0.1234567891'\n"), "control value file.0.weight"),
    ("weight of 9 digits 9", file("weight = '999999999'\n"), None),
    ("weight 1000000001", file("weight = '1000000001'\n"), "control value file.0.weight"),
    ("weight of 19 digits", file("weight = '1.000000000000000001'\n"), "control value file.0.weight"),
    ("weight with an exponent", file("weight = '2.5E-3'\n"), None),
    ("weight with blanks", file("weight = ' 2 '\n"), None),
    ("weight with a far exponent", file("weight = '1E61'\n"), "control value file.0.weight"),
    ("group is a number", file("group = 1\n"), "control kind file.0.group"),
    ("group of no byte", file("group = ''\n"), "control value file.0.group"),
    ("group of 8 bytes", file("group = 'abcdefgh'\n"), None),
    ("group of 9 bytes", file("group = 'abcdefghi'\n"), "control value file.0.group"),
    ("group with a blank", file("group = 'a b'\n"), "control value file.0.group"),
    ("weight before group", file("group = 1\nweight = '0'\n"), "control value file.0.weight"),
    ("form is a number", file("form = 1\n"), "control kind file.0.form"),
    ("form auto", file("form = 'auto'\n"), None),
    ("form neq", file("form = 'neq'\n"), None),
    ("form solution", file("form = 'solution'\n"), None),
    ("form in capitals", file("form = 'NEQ'\n"), "control value file.0.form"),
    ("group before form", file("form = 1\ngroup = ''\n"), "control value file.0.group"),
    ("constraints is a truth value", file("constraints = false\n"), "control kind file.0.constraints"),
    ("constraints auto", file("constraints = 'auto'\n"), None),
    ("constraints matrix", file("constraints = 'matrix'\n"), None),
    ("constraints sigma", file("constraints = 'sigma'\n"), None),
    ("constraints none", file("constraints = 'none'\n"), None),
    ("constraints nothing", file("constraints = 'nothing'\n"), "control value file.0.constraints"),
    ("form before constraints", file("constraints = 1\nform = ''\n"), "control value file.0.form"),
    ("first file before the second", file("constraints = 'x'\n") + "[[file]]\ncolour = 1\n", "control value file.0.constraints"),
    ("files before the datum", file("weight = 1\n") + "[datum]\nextra = 1\n", "control kind file.0.weight"),
]

DATUMS = [
    ("unknown key of datum", datum("1", "origin = 1\n"), "control key datum.origin"),
    ("no sites", BASE + "[datum]\nscale = '1'\n", "control key datum.sites"),
    ("sites is a text", datum("'ABCD'"), "control kind datum.sites"),
    ("sites is a list of texts", datum("['ABCD', 'A', '1']"), "control kind datum.sites"),
    ("a number in a site", datum("[['ABCD', 'A', 1]]"), "control kind datum.sites"),
    ("a number in the second site", datum(f"[{SITE}, ['ABCD', 'A', 1]]"), "control kind datum.sites"),
    ("kind of a site before the number of sites", datum("[" + "['A'], " * 101 + "1]"), "control kind datum.sites"),
    ("no site", datum("[]"), "control value datum.sites"),
    ("100 sites", datum(sites(100)), None),
    ("101 sites", datum(sites(101)), "control value datum.sites"),
    ("a site of two texts", datum("[['ABCD', 'A']]"), "control value datum.sites"),
    ("a site of four texts", datum("[['ABCD', 'A', '1', '1']]"), "control value datum.sites"),
    ("a site of no text", datum("[[]]"), "control value datum.sites"),
    ("code of five bytes", datum("[['ABCDE', 'A', '1']]"), "control value datum.sites"),
    ("point of three bytes", datum("[['ABCD', 'ABC', '1']]"), "control value datum.sites"),
    ("solution of five bytes", datum("[['ABCD', 'A', '00001']]"), "control value datum.sites"),
    ("code past 126", datum("[['é', 'A', '1']]"), "control value datum.sites"),
    ("site of empty texts", datum("[['', '', '']]"), None),
    ("site twice", datum(f"[{SITE}, {SITE}]"), "control repeated datum.sites"),
    ("site twice with zeros", datum(f"[{SITE}, ['ABCD', 'A', '0001']]"), "control repeated datum.sites"),
    ("site twice with blanks", datum("[['ABC', 'A', '1'], ['XYZ', 'A', '1'], [' ABC', ' A', '1 ']]"),
     "control repeated datum.sites"),
    ("value of sites before the same site", datum(f"[{SITE}, {SITE}, []]"), "control value datum.sites"),
    ("sites that differ in one text", datum(f"[{SITE}, ['ABCE', 'A', '1'], ['ABCD', 'B', '1'], ['ABCD', 'A', '2']]"), None),
    ("translation is a number", datum(f"[{SITE}]", "translation = 1\n"), "control kind datum.translation"),
    ("translation 0", datum(f"[{SITE}]", "translation = '0'\n"), "control value datum.translation"),
    ("translation of 10 digits", datum(f"[{SITE}]", "translation = '1.234567891'\n"), "control value datum.translation"),
    ("sites before translation", datum("[]", "translation = 1\n"), "control value datum.sites"),
    ("rotation is a float", datum(f"[{SITE}]", "rotation = 0.1\n"), "control kind datum.rotation"),
    ("rotation is no decimal", datum(f"[{SITE}]", "rotation = '1.2.3'\n"), "control value datum.rotation"),
    ("translation before rotation", datum(f"[{SITE}]", "rotation = 1\ntranslation = ''\n"), "control value datum.translation"),
    ("scale of the datum is a number", datum(f"[{SITE}]", "scale = 1\n"), "control kind datum.scale"),
    ("negative scale of the datum", datum(f"[{SITE}]", "scale = '-0.5'\n"), "control value datum.scale"),
    ("no standard deviation", datum(f"[{SITE}]", ""), "control value datum"),
    ("translation alone", datum(f"[{SITE}]", "translation = '1e-3'\n"), None),
    ("rotation alone", datum(f"[{SITE}]", "rotation = '0.01'\n"), None),
    ("all three", datum(f"[{SITE}]", "translation = '0.1'\nrotation = '0.2'\nscale = '0.3'\n"), None),
    ("datum before the reductions", datum(f"[{SITE}]", "") + "[[reduce]]\nextra = 1\n", "control value datum"),
]

REDUCTIONS = [
    ("unknown key of a reduction", BASE + "[[reduce]]\nwhen = 1\n", "control key reduce.0.when"),
    ("unknown key of the second reduction", BASE + REDUCE + "[[reduce]]\nwhen = 1\n", "control key reduce.1.when"),
    ("no place", BASE + f"[[reduce]]\nparam = {PARAM}\n", "control key reduce.0.at"),
    ("place is a number", reduce("1"), "control kind reduce.0.at"),
    ("place in capitals", reduce("'END'"), "control value reduce.0.at"),
    ("at the end", reduce("'end'"), None),
    ("at the end of a number", reduce("'end'", of="of = 1\n"), None),
    ("at the end of no file", reduce("'end'", of="of = 'nothing'\n"), None),
    ("at a file without its name", reduce("'file'"), "control key reduce.0.of"),
    ("at a group without its name", reduce("'group'"), "control key reduce.0.of"),
    ("of a number", reduce("'file'", of="of = 1\n"), "control kind reduce.0.of"),
    ("of a list", reduce("'group'", of="of = ['g']\n"), "control kind reduce.0.of"),
    ("at a listed file", reduce("'file'", of="of = 'a'\n"), None),
    ("at a file that is not listed", reduce("'file'", of="of = 'b'\n"), "control value reduce.0.of"),
    ("at a file by its group", reduce("'file'", of="of = 'g'\n"), "control value reduce.0.of"),
    ("at a group", reduce("'group'", of="of = 'g'\n"), None),
    ("at a group that no file has", reduce("'group'", of="of = 'h'\n"), "control value reduce.0.of"),
    ("at a group by its file", reduce("'group'", of="of = 'a'\n"), "control value reduce.0.of"),
    ("at a file of no byte", reduce("'file'", of="of = ''\n"), "control value reduce.0.of"),
    ("at a group of no byte", BASE + f"[[reduce]]\nat = 'group'\nof = ''\nparam = {PARAM}\n", "control value reduce.0.of"),
    ("value of a file after its parameter", reduce("'file'", "1", of="of = 'b'\n"), "control kind reduce.0.param"),
    ("no parameter", BASE + "[[reduce]]\nat = 'end'\n", "control key reduce.0.param"),
    ("parameter is a text", reduce("'end'", "'STAX'"), "control kind reduce.0.param"),
    ("a number in the parameter", reduce("'end'", "['STAX', 'ABCD', 'A', 1, '']"), "control kind reduce.0.param"),
    ("parameter of no text", reduce("'end'", "[]"), "control value reduce.0.param"),
    ("parameter of four texts", reduce("'end'", "['STAX', 'ABCD', 'A', '1']"), "control value reduce.0.param"),
    ("parameter of six texts", reduce("'end'", "['STAX', 'ABCD', 'A', '1', '', '']"), "control value reduce.0.param"),
    ("no type", reduce("'end'", "['', 'ABCD', 'A', '1', '']"), "control value reduce.0.param"),
    ("type of blanks", reduce("'end'", "['  ', 'ABCD', 'A', '1', '']"), "control value reduce.0.param"),
    ("type of seven bytes", reduce("'end'", "['STAXXXX', 'ABCD', 'A', '1', '']"), "control value reduce.0.param"),
    ("parameter on no day of its year", reduce("'end'", "['STAX', 'ABCD', 'A', '1', '26:366:00000']"), "control value reduce.0.param"),
    ("moment of 13 bytes", reduce("'end'", "['STAX', 'ABCD', 'A', '1', '26:001:00000 ']"), "control value reduce.0.param"),
    ("type alone", reduce("'end'", "['XPO', '', '', '', '']"), None),
    ("parameter twice", BASE + REDUCE + REDUCE, "control repeated reduce.1.param"),
    ("parameter twice, once with zeros and once at a file", BASE + REDUCE
     + "[[reduce]]\nat = 'file'\nof = 'a'\nparam = ['STAX ', 'ABCD', ' A', '0001', '26:001:00000']\n", "control repeated reduce.1.param"),
    ("parameter twice, never by zeros and by nothing", BASE
     + "[[reduce]]\nat = 'end'\nparam = ['XPO', '', '', '', '']\n[[reduce]]\nat = 'end'\nparam = ['XPO', '', '', '', '00:000:00000']\n",
     "control repeated reduce.1.param"),
    ("two reductions", BASE + REDUCE + "[[reduce]]\nat = 'file'\nof = 'a'\nparam = ['STAY', 'ABCD', 'A', '1', '26:001:00000']\n", None),
    ("second reduction of no file", BASE + REDUCE + "[[reduce]]\nat = 'file'\nof = 'b'\nparam = ['STAY', 'ABCD', 'A', '1', '']\n",
     "control value reduce.1.of"),
    ("place before of", reduce("'x'", of="of = 1\n"), "control value reduce.0.at"),
    ("of before the parameter", reduce("'file'", "1"), "control key reduce.0.of"),
    ("reductions before the scales", BASE + "[[reduce]]\nat = 1\n[scale]\nLONGEST = 0\n", "control kind reduce.0.at"),
    ("reference before reductions of no file", BASE + "[run]\nreference = 'b'\n" + f"[[reduce]]\nat = 'file'\nof = 'b'\nparam = {PARAM}\n",
     "control value run.reference"),
    ("reference after the reductions", BASE + "[run]\nreference = 'b'\n[[reduce]]\nat = 'end'\nparam = 1\n", "control kind reduce.0.param"),
]

SCALES = [
    ("no key of scale", scale(""), None),
    ("exponent is a text", scale("STAX = '0'\n"), "control kind scale.STAX"),
    ("exponent is a float", scale("STAX = 0.0\n"), "control kind scale.STAX"),
    ("exponent -4", scale("STAX = -4\n"), None),
    ("exponent -5", scale("STAX = -5\n"), "control value scale.STAX"),
    ("exponent 6", scale("STAX = 6\n"), None),
    ("exponent 7", scale("STAX = 7\n"), "control value scale.STAX"),
    ("exponent of a type that has 6", scale("RS_RA = 0\n"), None),
    ("type of six bytes", scale("SATA_Z = 0\n"), None),
    ("type of seven bytes in scale", scale("LONGEST = 0\n"), "control key scale.LONGEST"),
    ("type of no byte", scale("'' = 0\n"), "control key scale."),
    ("type with a blank before it", scale("' STA' = 0\n"), "control key scale. STA"),
    ("type with a blank in it", scale("'A B' = 0\n"), None),
    ("type is tested before exponents", scale("ASTAX = 7\nZLONGEST = 0\n"), "control key scale.ZLONGEST"),
    ("least of two types", scale("ZLONGEST = 0\nALONGEST = 0\n"), "control key scale.ALONGEST"),
    ("least of two exponents", scale("STAY = 7\nSTAX = '0'\n"), "control kind scale.STAX"),
    ("scales before the reference", scale("STAX = 7\n[run]\nreference = 'b'\n"), "control value scale.STAX"),
    ("scales before reductions of no file", scale("STAX = 7\n" + f"[[reduce]]\nat = 'file'\nof = 'b'\nparam = {PARAM}\n"),
     "control value scale.STAX"),
]

EVERY_KEY = """[output]
agency = 'IGN'
created = '26:001:43200'
technique = 'P'
content = 'S'
description = 'a combination'
output = 'weekly'
contact = 'someone@example.org'
[run]
reference = 'a.snx'
workers = 4
[[file]]
name = 'a.snx'
weight = '0.25'
group = 'first'
form = 'neq'
constraints = 'sigma'
[[file]]
name = 'b.snx'
[datum]
sites = [['ABCD', 'A', '1'], ['EFGH', 'A', '1']]
translation = '0.001'
rotation = '0.001'
scale = '0.001'
[[reduce]]
at = 'group'
of = 'first'
param = ['STAX', 'ABCD', 'A', '1', '26:001:00000']
[[reduce]]
at = 'file'
of = 'b.snx'
param = ['STAY', 'ABCD', 'A', '1', '26:001:00000']
[[reduce]]
at = 'end'
param = ['STAZ', 'ABCD', 'A', '1', '26:001:00000']
[scale]
STAX = -1
"""


def as_bytes(text):
    """The bytes of a control file that is written here as text, or as bytes where it is no UTF-8."""
    return text if isinstance(text, bytes) else text.encode()


CASES = [
    (name, as_bytes(text), line)
    for name, text, line in TEXTS + TOP + OUTPUTS + RUNS + FILES + DATUMS + REDUCTIONS + SCALES + [("every key", EVERY_KEY, None)]
]


def main(words):
    if not words:
        for name, _, line in CASES:
            print(f"{name}: {line or 'a control'}")
        return 0
    found = [text for name, text, _ in CASES if name == " ".join(words)]
    sys.stdout.buffer.write(b"".join(found))
    return 0 if found else 2


if __name__ == "__main__":
    sys.exit(main(sys.argv[1:]))
