#!/usr/bin/env python3
"""Finds each example of a refusal in `docs/LANGUAGE.md` in the table of rows: with the same text, but for line ends, and with the answer that the
page gives it."""

import os
import re
import sys

import checker_rows
import checking
from checking import HERE, check

PAGE = os.path.join(HERE, "docs", "LANGUAGE.md")
ANSWERS = {
    "P: unexpected byte": "BadByte",
    "P: bad literal": "BadLiteral",
    "P: not closed": "Unclosed",
    "P: literal or name too wide": "TooWide",
    "P: syntax error": "NoParse",
    "P: keyword K is not supported": "Unsupported",
    "P: undeclared name NAME": "Undeclared",
    "P: NAME declared again, first at Q": "Redeclared",
    "P: type too big": "TooBig",
    "P: record TAG differs from Q": "TagClash",
    "P: type of NAME differs from Q": "NameClash",
    "P: NAME defined again, first at Q": "Twice",
    "no definition of NAME": "Missing",
    "no function main": "NoMain",
    "limit WHICH passed: N": "Limit",
    **{rule: rule for rule in checker_rows.RULES},
}


def examples():
    """Each refusal of the page with the texts of its example's files."""
    with open(PAGE) as page:
        part = page.read().split("\n## Refusals\n")[1].split("\n## ")[0]
    for line in part.splitlines():
        cells = [cell.strip() for cell in line.strip("|").split("|")]
        refusal = cells[0].strip("`")
        if refusal in ANSWERS:
            yield ANSWERS[refusal], re.findall(r"`([^`]*)`", cells[-1])


def plain(text):
    return " ".join(text.split())


def main():
    rows = {(row.answer, tuple(plain(text) for _, text in row.files)) for row in checker_rows.every_row()}
    found = list(examples())
    for answer, texts in found:
        check((answer, tuple(map(plain, texts))) in rows, f"{answer}: no row has {texts}")
    missing = set(ANSWERS.values()) - {answer for answer, _ in found}
    check(not missing, f"the page has no example of {sorted(missing)}")
    print(f"docs/LANGUAGE.md: {checking.made - checking.failed} of {checking.made} examples are rows")
    return 1 if checking.failed else 0


if __name__ == "__main__":
    sys.exit(main())
