#!/usr/bin/env python3
"""Compares the table of rows (`checker_rows/`) with GCC: what a row says is accepted GCC accepts, and what it says is
refused GCC refuses, but for the rows that say that C99 answers otherwise than this project's choice (`own:`), for which GCC has to
answer otherwise, and those of which GCC only warns (`warns:`).

A statement or declaration stands on a line of its own for GCC, and the line that GCC names must be that of the row's mark;
where GCC names a line further on or before, it is told apart from a failure. Open rows are shown with GCC's answer."""

import os
import re
import subprocess
import sys
import tempfile

import checker_rows
import checking
from checking import check

GCC = ["gcc", "-std=c99", "-pedantic-errors", "-m32", "-funsigned-char", "-fno-diagnostics-show-caret", "-x", "c"]
# What GCC only warns of by default and what is no question of types.
QUIET = ["-Wno-unused-value", "-Wno-builtin-declaration-mismatch", "-Wno-main", "-Wno-address", "-Wno-switch-unreachable", "-Wno-div-by-zero"]
TOKEN = re.compile(r'"(?:[^"\\\n]|\\.)*"|\'(?:[^\'\\\n]|\\.)*\'|[A-Za-z_]\w*|\d\w*|[^\w\s]|\s+')
SHOWN_ELSEWHERE = 20


def spread(text):
    """The text with each statement and declaration on a line of its own, and the line of each byte of the text."""
    out, lines, line = [], [], 1
    for token in TOKEN.findall(text):
        token_out = " " if token.isspace() else token
        lines += [line] * len(token)
        out.append(token_out)
        if token == ";":
            out.append("\n")
            line += 1
    return "".join(out), lines


def answers_of(text, flags):
    """GCC's errors and warnings, each as its line and what it says. What is declared and never completed GCC finds only where it goes on to
    assembly."""
    errors, warnings = answers_to(text, [*flags, "-fsyntax-only"])
    return (errors, warnings) if errors else answers_to(text, [*flags, "-S", "-o", "-"])


def answers_to(text, flags):
    done = subprocess.run(GCC + flags + ["-"], input=text, capture_output=True, text=True, timeout=60)
    found = {"error": [], "warning": []}
    for line, kind, what in re.findall(r"^<stdin>:(\d+):(?:\d+:)? (error|warning): (.*)$", done.stderr, re.M):
        found[kind].append((int(line), what))
    if done.returncode != 0 and not found["error"]:
        found["error"].append((0, done.stderr.strip()[:200]))
    return found["error"], found["warning"]


def flags_of(row):
    """The rules on `main` are errors for GCC only where it is told to have them."""
    return ["-Werror=main", *QUIET[:2], *QUIET[3:]] if row.file == "main.txt" else QUIET


def check_row(row, elsewhere):
    text, lines = spread(row.text)
    errors, warnings = answers_of(text, flags_of(row))
    what = f"{row.file} {row.name}"
    said = (errors or warnings or [(0, "nothing")])[0]
    if row.answer == "accepted":
        check(bool(errors) == (row.kind == "own"), f"{what}: accepted{' unlike C99' if row.kind else ''}, GCC says {said}")
        return
    if row.kind == "own":
        check(not errors, f"{what}: refused unlike C99 ({row.reason}), GCC says {said}")
        return
    found = warnings if row.kind == "warns" else errors
    check(bool(found), f"{what}: refused, GCC says {said}")
    check(row.kind != "warns" or not errors, f"{what}: is not only warned of, GCC says {said}")
    if found and not {line for line, _ in found} & {lines[at] for at in row.places}:
        elsewhere.append(f"{what}: the row has line {[lines[at] for at in row.places]}, GCC says {found}")


def check_only_fault(row):
    """A refused row breaks one rule: GCC has to name one statement alone."""
    text, _ = spread(row.text)
    errors, _ = answers_of(text, flags_of(row))
    return sorted({line for line, _ in errors})


# ---- rows on what comes before and after types: GCC compiles and links the files as they are


def is_program_of_gcc(row):
    """Whether GCC makes a program of the files, or, where only their tokens and grammar count, takes the file."""
    with tempfile.TemporaryDirectory() as folder:
        for name, text in row.files:
            with open(os.path.join(folder, name), "w") as f:
                f.write(text)
        goal = ["-o", "program"] if row.file == "after_types.txt" else ["-fsyntax-only"]
        words = [*GCC[:-2], *QUIET, *goal, *(name for name, _ in row.files)]
        return checking.run(words, cwd=folder, seconds=60).returncode == 0


def links():
    """Whether GCC makes programs for its 32-bit target; what that needs is installed where that is allowed."""
    def makes_one():
        with tempfile.TemporaryDirectory() as folder:
            words = [*GCC[:-1], "c", "-o", os.path.join(folder, "program"), "-"]
            return checking.run(words, input=b"int main(void) { return 0; }\n", seconds=60).returncode == 0

    if not makes_one():
        checking.installs("gcc-multilib")
    return makes_one()


def check_other_row(row):
    taken = is_program_of_gcc(row)
    wanted = (row.answer == "accepted") != (row.kind == "own")
    check(taken == wanted, f"{row.file} {row.name}: {row.answer}{' unlike C99' if row.kind else ''}, GCC {'takes' if taken else 'refuses'} it")


def show_open(rows):
    for row in rows:
        errors, warnings = answers_of(spread(row.text)[0], QUIET)
        answer = f"refuses: {errors[0][1]}" if errors else f"warns: {warnings[0][1]}" if warnings else "accepts"
        print(f"  {row.name}: GCC {answer}")


def main():
    if not checking.have("gcc"):
        return 0
    errors, _ = answers_of("int x[sizeof(void *) == 4 ? 1 : -1];", [])
    if errors:
        print("skipped: GCC has no 32-bit target here (package gcc-multilib)")
        return 0
    settled, unsettled = checker_rows.all_rows()
    elsewhere = []
    for row in settled:
        if row.file not in ("before_types.txt", "after_types.txt"):
            check_row(row, elsewhere)
    others = [row for row in checker_rows.every_row() if row.file in ("before_types.txt", "after_types.txt")]
    can_link = links()
    if not can_link:
        print("skipped: rows on joining files, as GCC makes no program for its 32-bit target here (package gcc-multilib)")
    for row in others:
        if can_link or row.file == "before_types.txt":
            check_other_row(row)
    settled = [row for row in settled if row not in others]
    several = [(row, found) for row in settled if row.answer != "accepted" and not row.kind for found in [check_only_fault(row)] if len(found) > 1]
    print(f"GCC names another line in {len(elsewhere)} rows")
    for each in elsewhere[:SHOWN_ELSEWHERE]:
        print("  " + each)
    for row, found in several:
        print(f"  several lines: {row.file} {row.name}: {found}")
    print(f"open rows: {len(unsettled)}")
    show_open(unsettled)
    print(f"{len(settled) + len(others)} rows: {checking.made - checking.failed} comparisons agree with GCC, {checking.failed} do not")
    return 1 if checking.failed else 0


if __name__ == "__main__":
    sys.exit(main())
