#!/usr/bin/env python3
"""SINEX documents with the answers of `snxcomb solve in report` to them.

    documents.py               checks that tools/combine.py answers each document as its row says
    documents.py GROUP NAME    writes the document of this name to standard output

The documents stand in worked_documents.py and made_documents.py. A document is made by code from a small one: lines are
replaced, texts are put into columns. What a document wants is the text of the refusal after 'snxcomb: ', or a report, each
worked by hand; or nothing, and then tools/combine.py alone says what comes.
tools/check_program.py runs the built program over all of them.
"""

import sys

import made_documents
import worked_documents


def distinct(cases):
    seen = set()
    for case in cases:
        assert case.what not in seen, case.what
        seen.add(case.what)
        yield case


# the groups of documents, each by its name and what makes it
GROUPS = {
    "examples": made_documents.examples,
    "frames": worked_documents.frames,
    "rows": worked_documents.rows,
    "matrices": worked_documents.matrices,
    "sites and epochs": worked_documents.sites,
    "answers": worked_documents.answers,
    "cuts at each byte": made_documents.cuts_at_bytes,
    "bytes changed": made_documents.bytes_changed,
    "lines changed": made_documents.lines_changed,
    "columns changed": made_documents.bytes_of_rows,
    "dense matrices": made_documents.dense,
    "many rows": made_documents.many_rows,
}


def cases(group):
    return list(distinct(GROUPS[group]()))


def main():
    if len(sys.argv) > 1:
        group, name = sys.argv[1:]
        (case,) = [case for case in cases(group) if case.what == name]
        sys.stdout.buffer.write(case.text)
        return 0
    bad = worked_documents.texts_read_otherwise()
    for text in bad:
        print(f"FAILED  {text!r} is read otherwise")
    wrong = len(bad)
    for group in GROUPS:
        made = cases(group)
        bad = [case for case in made if not case.is_as_wanted()]
        for case in bad:
            print(f"FAILED  {case.what}: {case.answer[1]!r}, not {case.wants!r}")
        wrong += len(bad)
        known = sum(case.wants is not None for case in made)
        print(f"{group}: {len(made)} documents, {known} of them with a known answer, {len(bad)} with another")
    return 1 if wrong else 0


if __name__ == "__main__":
    sys.exit(main())
