#!/usr/bin/env python3
"""Compares the front end with tools that this project did not write: on the table of rows, whose texts are taken apart so that each token stands on a
line of its own, and on random programs of csmith, in one file and in several, whole and faulty.

Words: `--stand-in` asks GCC in the place of the front end, to try the script itself; a number says how many random programs are made."""

import re
import sys
import tempfile

import checker_rows
import checking
import csmith_programs as programs
from checking import LAYC, check

ACCEPTED = "accepted"
# Refusals that come after the types of all files: types are accepted then.
AFTER_TYPES = re.compile(r"no definition of |no function main$|limit \w+ passed: |.*: (type of \w+|record \S+) differs from |.*: \w+ defined again, "
                         r"|.*: form not built yet$")
# Random programs on which this project's C is narrower than C99, and the rules that say so.
RECORD_VALUE_RULES = ["ByValue", "Assign", "Member"]


# ---- the front end


def front_answer(files):
    """What the front end says of the files, given by name: `accepted`, or the refusal's text without `layc: `."""
    with tempfile.TemporaryDirectory() as folder:
        programs.write_files(folder, files)
        done = checking.run([LAYC, "compile", "-o", "program", *files], cwd=folder)
    if done.returncode == 0:
        return ACCEPTED
    return re.sub(r"^layc: ", "", done.stderr.decode(errors="replace")).rstrip("\n")


def answer_of_gcc(files):
    """GCC in the place of the front end."""
    refused = [name for name, text in files.items() if not programs.is_strict(text)]
    return f"{refused[0]}: refused" if refused else ACCEPTED


def has_front():
    """Whether the front end reads C: one that does not refuses a program that needs no more than types."""
    answer = front_answer({"t.c": "int main(void){return;}\n"})
    return answer == "t.c:1: type rule Return broken"


# ---- rows: a token a line


TOKEN = re.compile(r'"(?:[^"\\\n]|\\.)*"|\'(?:[^\'\\\n]|\\.)*\'|\.\.\.|<<=|>>=|->|\+\+|--|<<|>>|<=|>=|==|!=|&&|\|\||[-+*/%&^|]=|\w+|\S')


def spread(text):
    """The text with a token a line, and the line of the token at each byte."""
    words, line_at = [], {}
    for number, m in enumerate(TOKEN.finditer(text), 1):
        words.append(m.group(0))
        line_at[m.start()] = number
    return "\n".join(words) + "\n", line_at


def texts_wanted(row, line_at):
    lines = [line_at[at] for at in row.places]
    if row.answer == "Undeclared":
        return [f"t.c:{line}: undeclared name {row.subject}" for line in lines]
    if row.answer == "Redeclared":
        return [f"t.c:{line}: {row.subject} declared again, first at t.c:{line_at[row.first]}" for line in lines]
    if row.answer == "TooBig":
        return [f"t.c:{line}: type too big" for line in lines]
    return [f"t.c:{line}: type rule {row.answer} broken" for line in lines]


def is_taken(answer):
    return answer == ACCEPTED or AFTER_TYPES.match(answer) is not None


def check_rows(ask, exact):
    settled, unsettled = checker_rows.all_rows()
    for row in settled:
        text, line_at = spread(row.text)
        answer = ask({"t.c": text})
        what = f"{row.file} {row.name}"
        if row.answer == "accepted":
            check(is_taken(answer) or not exact and row.kind == "own", f"{what}: answers {answer!r}, wanted {ACCEPTED}")
        elif exact:
            check(answer in texts_wanted(row, line_at), f"{what}: answers {answer!r}, wanted one of {texts_wanted(row, line_at)}")
        else:
            check(not is_taken(answer) or row.kind in ("own", "warns"), f"{what}: answers {answer!r}, wanted {row.answer}")
    if exact:
        for row in unsettled:
            text, line_at = spread(row.text)
            print(f"  open: {row.name} ({row.reason}): {ask({'t.c': text})}")


# ---- rows on what comes before and after types, as they are


OTHER_TEXTS = {
    "BadByte": "{at}: unexpected byte",
    "BadLiteral": "{at}: bad literal",
    "Unclosed": "{at}: not closed",
    "TooWide": "{at}: literal or name too wide",
    "NoParse": r"t\.c:\d+: syntax error",
    "Unsupported": "{at}: keyword {subject} is not supported",
    "Missing": "no definition of {subject}",
    "Twice": "{at}: {subject} defined again, first at {first}",
    "TagClash": "{at}: record {subject} differs from {first}",
    "NameClash": "{at}: type of {subject} differs from {first}",
    "NoMain": "no function main",
    "Limit": "limit {subject} passed: {counted}",
}


def text_wanted(row):
    """A regular expression for the refusal of a row."""
    at = f"{row.place_file}:{row.line_of(row.place_file, row.places[0])}" if row.places else ""
    first = f"{row.first_file}:{row.line_of(row.first_file, row.first)}" if row.first is not None else ""
    return OTHER_TEXTS[row.answer].format(at=re.escape(at), first=re.escape(first), subject=row.subject, counted=row.counted)


def check_other_rows(ask):
    for row in checker_rows.every_row():
        if row.file in ("before_types.txt", "after_types.txt"):
            answer = ask(dict(row.files))
            good = answer == ACCEPTED or "form not built yet" in answer or "no function main" in answer if row.answer == "accepted" \
                else re.fullmatch(text_wanted(row), answer) is not None
            check(good, f"{row.file} {row.name}: answers {answer!r}, wanted {row.answer}")


# ---- random programs


def names_rule(answer, rules):
    return any(re.search(rf"\b{rule}\b", answer) for rule in rules)


def check_whole(ask, seed):
    """A program that is strict C99 is accepted, and one that is not is refused; where records may be values, also by the rules on these."""
    values = seed % 4 == 3
    text = programs.program(seed, values, seed % 3 == 0)
    if text is None:
        return
    answer, strict = ask({"t.c": text}), programs.is_strict(text)
    good = is_taken(answer) == strict or values and strict and names_rule(answer, RECORD_VALUE_RULES)
    check(good, f"seed {seed}: answers {answer!r}, GCC {'takes' if strict else 'refuses'} it")
    if strict and is_taken(answer):
        parts = programs.split(text, 2 + seed % 3, seed)
        answer = ask(parts)
        check(is_taken(answer), f"seed {seed} in {len(parts)} files: answers {answer!r}")


def check_faults(ask, exact, seed, text):
    for name, rules, broken in programs.faulty(text, seed):
        answer = ask({"t.c": broken})
        check(not is_taken(answer), f"seed {seed} with {name}: answers {answer!r}")
        check(not exact or names_rule(answer, rules), f"seed {seed} with {name}: answers {answer!r}, wanted one of {rules}")


def check_joined(ask, seed, text):
    """What goes wrong between files, which the answers of a compiler for single files do not tell."""
    parts = programs.split(text, 3, seed)
    cases = [(programs.clashing(parts), "type of {} differs from"), (programs.without_definition(parts), "no definition of {}"),
             (programs.with_two_mains(parts), "{} defined again")]
    for case, wanted in cases:
        if case is not None:
            answer = ask(case[0])
            check(wanted.format(case[1]) in answer, f"seed {seed} in 3 files: answers {answer!r}, wanted {wanted.format(case[1])!r}")


def main():
    words = sys.argv[1:]
    exact = "--stand-in" not in words
    count = next((int(word) for word in words if word.isdigit()), 100)
    if exact and not has_front():
        print("skipped: no command checks the types of C programs yet; `--stand-in` tries the script with GCC")
        return 0
    ask = front_answer if exact else answer_of_gcc
    if exact:
        checking.built("layc")
    if not exact and not checking.have("gcc"):
        return 0
    check_rows(ask, exact)
    if exact:
        check_other_rows(ask)
    if programs.have_csmith():
        for seed in range(1, count + 1):
            check_whole(ask, seed)
        for seed, text in programs.strict_programs(max(1, count // 20), small=True):
            check_faults(ask, exact, seed, text)
            if exact:
                check_joined(ask, seed, text)
    print(f"front end: {checking.made - checking.failed} comparisons hold, {checking.failed} do not")
    return 1 if checking.failed else 0


if __name__ == "__main__":
    sys.exit(main())
