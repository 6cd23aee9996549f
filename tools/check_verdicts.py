#!/usr/bin/env python3
"""Compares the verdicts on records, as the program `front_rows` prints them, with the second reading of `verdict_reading.py`: the test that each record
violates first, and the byte. On random programs of `verdict_programs.py`, and on some of csmith.

Words: how many programs are made, and the first seed. A program that `front_rows` refuses is not compared, and at most one in ten may be that.

Made is no null that is cast twice and converted then, as in `(struct S *)(void *)(char *)0`: the second reading has it as null (C99 6.3.2.3p4), and
`front_rows` not."""

import collections
import re
import sys

import checking
import csmith_programs
import verdict_programs
import verdict_reading
from checking import check
from make_front_rows import lines_of

AT_ONCE = 100
SMALL = 60000
ANSWER = re.compile(r"( \w+ (legal|[A-Z]{3,4} at \S+ \d+))*")


def verdicts_of_front(program, all_files):
    """For each program the words that `front_rows` prints for it."""
    blocks = []
    for files in all_files:
        lines = [line for name, text in files.items() for line in [f"file {name}", *lines_of(text)]]
        blocks.append("\n".join(["judge row", *lines]) + "\n")
    done = checking.run([program], input="\n".join(blocks).encode())
    return [line.partition(":")[2] for line in done.stdout.decode(errors="replace").splitlines()]


def verdicts_of_reading(files):
    return verdict_reading.Reading(files).verdicts(list(files))


def in_words(verdicts):
    return "".join(f" {tag} {' at '.join(filter(None, [v[0], ' '.join(map(str, v[1:]))]))}" for tag, v in verdicts.items())


def random_programs(count, first):
    for seed in range(first, first + count):
        yield f"seed {seed}", verdict_programs.program(seed)


def programs_of_csmith(count, first):
    """Without line markers, so that places are those of the text."""
    if count > 0 and csmith_programs.have_csmith():
        for seed in range(first, first + count):
            text = csmith_programs.program(seed, small=True)
            if text is not None and len(text) < SMALL:
                yield f"seed {seed} of csmith", {"t.c": re.sub(r"(?m)^#.*$", "", text)}


class Tally:
    """What was compared."""

    def __init__(self):
        self.programs = self.refused = self.records = 0
        self.tests = collections.Counter()

    def compare(self, name, files, answer):
        self.programs += 1
        if not ANSWER.fullmatch(answer):
            self.refused += 1
            return
        wanted = verdicts_of_reading(files)
        self.records += len(wanted)
        self.tests.update(verdict[0] for verdict in wanted.values())
        check(answer == in_words(wanted), "".join([f"{name}: front_rows has{answer}; read is{in_words(wanted)}",
                                                   *(f"\n---- {file}\n{text}" for file, text in files.items() if checking.failed < 2)]))


def main():
    numbers = [int(word) for word in sys.argv[1:]]
    count, first = [*numbers, *[300, 1][len(numbers) :]]
    if not verdict_reading.have_parser():
        return 0
    program = checking.built("front_rows")
    if program is None:
        print("skipped: there is no program front_rows")
        return 0
    tally = Tally()
    for made in (random_programs(count, first), programs_of_csmith(count // 50, first)):
        made = list(made)
        for begin in range(0, len(made), AT_ONCE):
            some = made[begin : begin + AT_ONCE]
            answers = verdicts_of_front(program, [files for _, files in some])
            check(len(answers) == len(some), f"front_rows gives {len(answers)} answers to {len(some)} programs")
            for (name, files), answer in zip(some, answers):
                tally.compare(name, files, answer)
    check(tally.refused * 10 <= tally.programs, f"{tally.refused} of {tally.programs} programs are refused")
    check(count < 100 or all(tally.tests[test] for test in verdict_reading.TESTS), "some test is violated first in no program")
    print(f"verdicts: {tally.programs} programs, {tally.refused} of them refused, {tally.records} records, {checking.failed} differences; first tests: "
          + ", ".join(f"{test} {tally.tests[test]}" for test in ["legal", *verdict_reading.TESTS]))
    return 1 if checking.failed else 0


if __name__ == "__main__":
    sys.exit(main())
