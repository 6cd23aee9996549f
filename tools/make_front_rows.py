#!/usr/bin/env python3
"""Makes what the program `crates/front_rows` is run on, and what it has to print, from `checker_rows/*.txt`, `profile_rows.txt`, `verdict_rows.txt`,
`plan_rows.txt` and `code_rows.txt`.

With `--check` it writes nothing, and the exit status is 1 where a file is another than the rows have it."""

import os
import re
import sys

import checker_rows
import row_files
from checking import HERE

# Rows as they stand on the input, each with what has to be printed after its name below it, after `=`.
PROFILE_ROWS = os.path.join(HERE, "tools", "profile_rows.txt")
CODE_ROWS = os.path.join(HERE, "tools", "code_rows.txt")
PLAN_ROWS = os.path.join(HERE, "tools", "plan_rows.txt")
# Rows on records, as that file says.
VERDICT_ROWS = os.path.join(HERE, "tools", "verdict_rows.txt")
DECLARATIONS = (
    "void *malloc(unsigned);void *memset(void *,int,unsigned);int memcmp(const void *,const void *,unsigned);"
    "struct S{int x;int y[2];};int g(struct S *a){return a->x;}"
)
MAIN = "int main(void){struct S *p=malloc(sizeof(struct S)),*q=p;char *c=0;"
# Of a character that stands more often than this the number is written.
MOST_TIMES = 200


def lines_of(text):
    """The lines that stand for a text, each of whose lines ends."""
    for line in text.splitlines():
        *parts, last = re.split(rf"((.)\2{{{MOST_TIMES},}})", line)
        for part, run, character in zip(parts[::3], parts[1::3], parts[2::3]):
            yield f":{part}"
            yield f"times {len(run)} {ord(character):02X}"
        yield f"|{last}"


def question(row):
    if row.program is not None:
        return "show"
    return "link" if row.file == "after_types.txt" else "check"


def asked(row):
    """The block of a row on the input."""
    yield f"{question(row)} {row.name}"
    if len(row.places) > 1:
        yield f"places {' '.join(map(str, row.places))}"
    for name, text in row.files:
        yield f"file {name}"
        yield from lines_of(text)


def answer_of(row):
    """What has to become of a row's files."""
    if row.program is not None:
        return f"\n{row.program.rstrip()}"
    if row.answer == "accepted":
        return " program" if question(row) == "link" else " accepted"
    if row.answer == "NoParse":
        return " NoParse"
    words = [row.answer, *filter(None, [row.subject, row.counted])]
    if row.places:
        words += ["at", row.place_file, " or ".join(map(str, row.places))]
    if row.first is not None:
        words += ["first at", row.first_file, str(row.first)]
    return f" {' '.join(words)}"


def of_checker_rows():
    """The name of each row on files of C, its block on the input, and its answer."""
    for row in checker_rows.every_row():
        if row.answer != "open":
            yield row.name, "\n".join(asked(row)), answer_of(row)


def blocks_in(path):
    """The blocks of lines of a file, without its comments."""
    return re.sub(r"(?m)^#.*\n", "", row_files.text_in(path)).strip().split("\n\n")


def of_standing_rows(path):
    """The same of each row of a file that has them as they stand on the input."""
    for block in blocks_in(path):
        lines, _, answer = block.partition("\n=")
        yield lines.split("\n")[0].split(" ")[1], lines, answer


def of_text_rows(path):
    """The same of each row on profiles or plans. The last line of a text below `=` ends too."""
    for name, lines, answer in of_standing_rows(path):
        end = "\n" if answer.startswith("\n") else ""
        yield name, lines, answer + end


def marked_files(lines):
    """The name of each file of a row on records, and its text with its marks."""
    parts = {"before": "", "main": ""}
    files = []
    for line in lines:
        word, _, text = line.partition(" ")
        if word == "file":
            files.append(text.split(" ", 1))
        else:
            parts[word] = text
    return files or [("t.c", f"{DECLARATIONS}{parts['before']}{MAIN}{parts['main']} return 0;}}")]


def marks_in(name, text):
    """Where the marks of a file stand, as text, without regard to themselves."""
    return [f"{name} {at.start() - count}" for count, at in enumerate(re.finditer("@", text))]


def of_verdict_rows():
    """The same of each row on records."""
    for block in blocks_in(VERDICT_ROWS):
        lines, _, answer = block.strip().partition("\n= ")
        head, *lines = lines.split("\n")
        question, _, row_name = head.rpartition(" ")
        files = marked_files(lines)
        marks = [mark for name, text in files for mark in marks_in(name, text)]
        asked_lines = [f"{question or 'judge'} {row_name}"]
        for name, text in files:
            asked_lines += [f"file {name}", f"|{text.replace('@', '')}"]
        verdicts = ""
        words = answer.split()
        if question == "weigh":
            verdicts, words = f" {answer.strip()}", []
        for tag, test in zip(words[::2], words[1::2]):
            verdicts += f" {tag} {test}"
            if test != "legal":
                verdicts += f" at {marks[0]}"
                marks = marks[1:] or marks
        yield row_name, "\n".join(asked_lines), verdicts


def main():
    rows = [*of_checker_rows(), *of_text_rows(PROFILE_ROWS), *of_verdict_rows(), *of_text_rows(PLAN_ROWS), *of_standing_rows(CODE_ROWS)]
    assert len({name for name, _, _ in rows}) == len(rows), "two rows have one name"
    return row_files.main("front_rows", [f"{block}\n" for _, block, _ in rows], [f"{name}:{answer}\n" for name, _, answer in rows])


if __name__ == "__main__":
    sys.exit(main())
