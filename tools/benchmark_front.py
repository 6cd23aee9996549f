#!/usr/bin/env python3
"""Times the front end, from bytes to a typed program, on random C text of 1, 2 and 4 MB beside `gcc -fsyntax-only` and `tcc -c`, in the same run: the
median of several, in processor seconds, and whether twice the text takes about twice the time. What a program of one line takes is taken off: it is
what a command needs to begin, and `./layc` to see that it is built.

The text is that of csmith's programs one after another, with names of their own. Such a text has more nodes than a program may have, so the front end
refuses it at its very end, when all has been typed and joined. `--stand-in` leaves the front end out."""

import itertools
import os
import re
import resource
import statistics
import sys
import tempfile

import checking
import csmith_programs as programs
from checking import LAYC

SIZES = [1_000_000, 2_000_000, 4_000_000]
GREATEST = 4_194_304
ROUNDS = 5
ONE_LINE = "int main(void) { return 0; }\n"
# Twice the text may take this much more than twice the time.
SLACK = 1.35


# ---- the text


def renamed(text, number):
    """A program's own names with a number after them."""
    return re.sub(r"\b(g_\d+|func_\d+|S\d+|main|__undefined)\b", lambda m: f"{m.group(0)}_{number}", text)


def own_text(text):
    """csmith's part of a preprocessed program, after the last line marker of the header."""
    return text[[m.end() for m in re.finditer(r'(?m)^# \d+ "t\.c".*\n', text)][-1] :]


def whole_header():
    """The header with all its functions, which every program of a long text shares."""
    uses = "int main(void) { " + "; ".join(sorted(set(safe_names()))) + "; return 0; }"
    return re.sub(r"int main\(void\).*", "", programs.preprocessed('#include "csmith.h"\n' + uses + "\n", "t.c"))


def safe_names():
    with open(os.path.join(programs.HERE, "csmith_runtime.h")) as header:
        text = header.read()
    kinds = {"SIGNED_NARROW_SUMS": ["int8_t", "int16_t"], "SIGNED_WIDE_SUMS": ["int32_t"], "SIGNED": ["int8_t", "int16_t", "int32_t"],
             "UNSIGNED": ["uint8_t", "uint16_t", "uint32_t"]}
    for macro in re.split(r"(?m)^#define ", text)[1:]:
        for prefix, suffix in re.findall(r"(safe_\w+?)##T##(\w+)", macro):
            yield from (prefix + kind + suffix for kind in kinds[macro.split("(")[0]])


def texts(sizes=SIZES):
    """A text of each size: each is a first part of the longer ones."""
    out, size, number, sizes = [whole_header()], 0, 0, iter(sizes)
    wanted = next(sizes)
    for seed, text in programs.strict_programs(10**6):
        number += 1
        own = renamed(own_text(text), number)
        if size + len(own) > wanted:
            yield "".join(out) + ONE_LINE
            wanted = next(sizes, None)
            if wanted is None:
                return
        out.append(own)
        size = sum(map(len, out))


# ---- times


def timed(words, folder):
    """The program's end and the processor seconds that it took with its children."""
    before = resource.getrusage(resource.RUSAGE_CHILDREN)
    done = checking.run(words, cwd=folder)
    after = resource.getrusage(resource.RUSAGE_CHILDREN)
    return done, after.ru_utime - before.ru_utime + after.ru_stime - before.ru_stime


def front_seconds(path):
    """What the front end takes for the file."""
    return timed([LAYC, "compile", "-o", "text.out", path], os.path.dirname(path))[1]


def command_seconds(words):
    def seconds(path):
        done, seconds = timed([*words, path], os.path.dirname(path))
        assert done.returncode == 0, done.stderr[:500]
        return seconds

    return seconds


def measured(timers, paths):
    """The median of each timer on each file; the rounds go over all of them in turn, so that what else the machine does falls on all alike."""
    found = {(name, path): [] for name in timers for path in paths}
    for _ in range(ROUNDS):
        for path in paths:
            for name, timer in timers.items():
                found[name, path].append(timer(path))
    return {key: statistics.median(each) for key, each in found.items()}


def show(timers, beginning, paths, times):
    """Each row has what a command needs to begin, what it needs beyond that for each text, and how much of the longest it reads in a second."""
    print(f"{'':18}    to begin" + "".join(f"{os.path.getsize(path) / 1e6:9.2f} MB" for path in paths))
    for name in timers:
        start = times[name, beginning]
        row = [times[name, path] - start for path in paths]
        speed = os.path.getsize(paths[-1]) / 1e6 / row[-1]
        print(f"{name:18}" + "".join(f"{seconds:10.3f} s" for seconds in [start, *row]) + f"{speed:7.1f} MB/s   " + growth(row, paths))


def growth(row, paths):
    """How the time grows with the text, from each file to the next."""
    sizes = [os.path.getsize(path) for path in paths]
    steps = [(b / a) / (t / s) for a, b, s, t in zip(row, row[1:], sizes, sizes[1:])]
    return ("about linear" if max(steps) <= SLACK else "MORE THAN LINEAR") + " (" + ", ".join(f"{step:.2f}" for step in steps) + " of what is linear)"


def main():
    if not programs.have_csmith():
        return 0
    timers = {}
    if "--stand-in" not in sys.argv:
        checking.built("layc")
        timers["layc"] = front_seconds
    timers["gcc -fsyntax-only"] = command_seconds(["gcc", "-std=c99", "-m32", "-funsigned-char", "-w", "-fsyntax-only", "-x", "cpp-output"])
    if checking.have("tcc"):
        timers["tcc -c"] = command_seconds(["tcc", "-c", "-w", "-o", "text.o"])
    with tempfile.TemporaryDirectory() as folder:
        paths = []
        for size, text in zip([0, *SIZES], itertools.chain([ONE_LINE], texts())):
            assert len(text) <= GREATEST
            paths.append(os.path.join(folder, f"text{size // 1_000_000}.c"))
            with open(paths[-1], "w") as f:
                f.write(text)
        beginning, *texts_of_sizes = paths
        show(timers, beginning, texts_of_sizes, measured(timers, paths))
    return 0


if __name__ == "__main__":
    sys.exit(main())
