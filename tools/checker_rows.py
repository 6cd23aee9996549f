#!/usr/bin/env python3
"""The table of small C files with what has to become of each: `checker_rows/*.txt`.

A row is a line `[NAME] ANSWER | CLAUSE`, maybe with ` | own: REASON` after it, then the file's text up to an empty
line. ANSWER is `accepted`, the name of a type rule, `Undeclared NAME`, `Redeclared NAME` or `TooBig`. In the text `@`
stands before the token at which the refusal is, and `$` before the first declaration of what is declared again; both are
no part of the file. Where several `@` stand, one of them is named. A line `# ..` is a comment, so a line marker in a text
is a `#line`. `own:` says why a compiler for C99 answers otherwise; `warns:` says why it only warns. In `open.txt` stand texts whose answer is not settled.

As a command it shows the numbers.

What is refused before types are looked at stands in `before_types.txt` (BadByte, BadLiteral, Unclosed, TooWide, NoParse, Unsupported KEYWORD), and what is
refused when files are joined in `after_types.txt` (Missing NAME, Twice NAME, TagClash TAG, NameClash NAME, NoMain, Limit WHICH COUNTED). There a line `== NAME`
begins a file of that name, and a line `== program` the text of the program that the files are, as `crates/front_rows/README.md` says;
a line of it that begins with
a space goes on the one before. `{;}*9` stands for nine semicolons."""

import os
import re

FOLDER = os.path.join(os.path.dirname(os.path.abspath(__file__)), "checker_rows")
RULES = """Specifiers Constant Length Incomplete ByValue Operands Lvalue Assign Arguments Callee Return Condition Member Cast Label Jump
Init Library Main Scope""".split()
BEFORE_TYPES = ["BadByte", "BadLiteral", "Unclosed", "TooWide", "NoParse", "Unsupported"]
AFTER_TYPES = ["Missing", "Twice", "TagClash", "NameClash", "NoMain", "Limit"]
OF_TYPES = [*RULES, "Undeclared", "Redeclared", "TooBig"]
# the answers that name something, those that have a first place, and those without a place
NAMING = ["Undeclared", "Redeclared", "Unsupported", "Missing", "Twice", "TagClash", "NameClash", "Limit"]
WITH_FIRST = ["Redeclared", "Twice", "TagClash", "NameClash"]
PLACELESS = ["accepted", "Missing", "NoMain", "Limit"]
PLACE, FIRST = "@", "$"
PROGRAM = "program"


class Row:
    """`files` are the names and texts; `text` is that of the first. `program` is the text of their program, where the row has it. `places`
    and `first` are byte offsets in `place_file` and `first_file`.
    `subject` is what an answer names, and `counted` the number that passes a limit. `kind` is `own`, `warns`, `asks` or empty, and `reason` why."""

    def __init__(self, file, name, answer, clause, kind, reason, marked):
        self.file, self.name, self.clause, self.kind, self.reason = file, name, clause, kind, reason
        self.answer, self.subject, self.counted = (answer.split(" ") + ["", ""])[:3]
        self.files, self.places, self.first, self.program = [], [], None, None
        self.place_file = self.first_file = None
        for file_name, part in parts_in(marked):
            if file_name == PROGRAM:
                self.program = re.sub(r"\n +", " ", part)
            else:
                self.files.append((file_name, self.unmarked(repeated(part), file_name)))
        self.text = self.files[0][1]
        self.check(marked)

    def unmarked(self, marked, file_name):
        """The text without its marks, whose places are kept."""
        text, places = "", []
        for c in marked:
            if c == PLACE:
                places.append(len(text))
                self.place_file = file_name
            elif c == FIRST:
                self.first, self.first_file = len(text), file_name
            else:
                text += c
        self.places = places or self.places
        return text

    def line_of(self, file_name, at):
        return dict(self.files)[file_name].count("\n", 0, at) + 1

    def is_of_types(self):
        return self.answer in OF_TYPES or self.answer == "accepted" and len(self.files) == 1

    def check(self, marked):
        where = f"{self.file}: {self.name}"
        assert self.answer in ["accepted", "open", *OF_TYPES, *BEFORE_TYPES, *AFTER_TYPES], f"{where}: {self.answer}"
        assert (self.answer in NAMING) == bool(self.subject), f"{where}: which name?"
        assert (self.answer == "Limit") == bool(self.counted), f"{where}: which number?"
        assert self.program is None or self.answer == "accepted", f"{where}: which program?"
        assert (self.answer == "open") == (self.kind == "asks"), f"{where}: open and asks: go together"
        assert self.answer == "open" or bool(self.places) == (self.answer not in PLACELESS), f"{where}: the mark of the place"
        assert self.answer == "open" or (self.first is not None) == (self.answer in WITH_FIRST), f"{where}: the mark of the first declaration"
        assert marked.isascii() and self.clause, f"{where}: clause"
        if self.answer in ("Undeclared", "Redeclared"):
            assert all(self.text[at:].startswith(self.subject) for at in self.places), f"{where}: {self.subject} is not there"


def repeated(text):
    return re.sub(r"\{(.)\}\*(\d+)", lambda m: m[1] * int(m[2]), text)


def parts_in(marked):
    parts = re.split(r"(?m)^== (\S+)\n", marked)
    return list(zip(parts[1::2], parts[2::2])) or [("t.c", marked)]


def split_header(line, file):
    parts = re.fullmatch(r"\[([a-z0-9_]+)\] ([A-Za-z]+(?: [A-Za-z_0-9]+){,2}) \| ([^|]+?)(?: \| (own|warns|asks): (.+))?", line)
    assert parts, f"{file}: {line}"
    return [part or "" for part in parts.groups()]


def rows_of(file):
    with open(os.path.join(FOLDER, file)) as lines:
        blocks = re.split(r"\n\s*\n", "".join(line for line in lines if not re.match(r"#( |$)", line)).strip())
    for block in filter(None, blocks):
        header, _, text = block.partition("\n")
        name, answer, clause, kind, reason = split_header(header, file)
        yield Row(file, name, answer, clause, kind, reason, text + "\n")


def all_rows():
    """The rows on types that have an answer, and those whose answer is open."""
    rows = every_row()
    return [row for row in rows if row.is_of_types()], [row for row in rows if row.answer == "open"]


def every_row():
    rows = [row for file in sorted(os.listdir(FOLDER)) if file.endswith(".txt") for row in rows_of(file)]
    names = [row.name for row in rows]
    twice = {name for name in names if names.count(name) > 1}
    assert not twice, f"two rows have one name: {sorted(twice)}"
    return rows


def counts(rows):
    table = {}
    for row in rows:
        accepted, refused = table.get(row.file, (0, 0))
        table[row.file] = (accepted + (row.answer == "accepted"), refused + (row.answer != "accepted"))
    return table


def main():
    settled, unsettled = all_rows()
    for file, (accepted, refused) in counts(settled).items():
        print(f"{file:20} {accepted:4} accepted {refused:4} refused")
    by_answer = {answer: sum(row.answer == answer for row in settled) for answer in [*OF_TYPES, "accepted"]}
    print(", ".join(f"{answer} {number}" for answer, number in by_answer.items()))
    others = len(every_row()) - len(settled) - len(unsettled)
    print(f"{len(settled)} rows on types, {others} on what comes before and after types, {len(unsettled)} open")


if __name__ == "__main__":
    main()
