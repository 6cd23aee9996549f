#!/usr/bin/env python3
"""Measures `layc interp` on small programs, beside `tcc -run` and GCC's code without optimisation.

- An empty loop: turns in a second.
- A loop of simple operations on locals and elements of an array: operations in a second.
- Calls of a function: calls in a second. Conditions with `&&` and `||`: turns in a second.
- A walk along a ring of records: steps in a second.
- Small blocks that are allocated and freed, few of them at a time: blocks in a second, and whether time and peak memory grow with their number.
- A block that is made again and again, each time a little greater: blocks in a second, and the peak memory, which is that of few of them.
- A `switch` of many arms with many statements each, of which a turn does three: turns in a second.

Each program is run with four times the count until a run takes long enough, and a run that does nothing is taken off. `--stand-in` leaves the interpreter
out; a number is the least time of a run in seconds."""

import os
import sys
import tempfile

import checking
from benchmark import measured
from checking import TIME, built, have
from csmith_programs import GCC

LEAST_SECONDS, RUNS = 1.0, 3
FIRST_COUNT, GREATEST_COUNT = 10_000, 2_000_000_000
TURNS = 10**18


class Case:
    """A program with its count, and how many units of work each count is."""

    def __init__(self, name, unit, each, text):
        self.name, self.unit, self.each, self.text = name, unit, each, text

    def with_count(self, count):
        return self.text.replace("COUNT", str(count))


EMPTY = Case("an empty loop", "turns", 1, """int main(void)
{
    int i;
    for (i = 0; i < COUNT; i++)
        ;
    return i == COUNT ? 0 : 1;
}
""")

# In each turn: 1 product, 2 sums, 3 masks, 1 shift, 1 exclusive or, 2 loads and 1 store of elements, 1 assignment, 2 steps and 1 comparison.
SIMPLE = Case("simple operations", "operations", 15, """int main(void)
{
    unsigned table[64] = { 1 }, sum = 0, i, k = 0;
    for (i = 0; i < COUNT; i++) {
        sum = sum * 3 + table[k & 63] + i;
        table[sum & 63] = sum ^ table[i & 63] >> 3;
        k++;
    }
    return sum == 1;
}
""")

CALLS = Case("calls of a function of one argument", "calls", 1, """int next(int n)
{
    return n + 1;
}
int main(void)
{
    int i, s = 0;
    for (i = 0; i < COUNT; i++)
        s = next(s);
    return s == COUNT ? 0 : 1;
}
""")

CONDITIONS = Case("conditions of three comparisons", "turns", 1, """int main(void)
{
    int i, s = 0;
    for (i = 0; i < COUNT; i++)
        if (i > 5 && i < 100000 || i == 3)
            s++;
    return s < 0;
}
""")

CHASE = Case("a walk along a ring of 1000 records", "steps", 1, """void *malloc(unsigned);
struct Node { int value; struct Node *next; };
int main(void)
{
    struct Node *first = malloc(sizeof(struct Node)), *last = first, *at;
    int i, sum = 0;
    first->value = 1;
    for (i = 1; i < 1000; i++) {
        last->next = malloc(sizeof(struct Node));
        last = last->next;
        last->value = i;
    }
    last->next = first;
    for (at = first, i = 0; i < COUNT; i++) {
        sum += at->value;
        at = at->next;
    }
    return sum == 0 && COUNT > 0;
}
""")

BLOCKS = Case("blocks of 16 bytes, 64 of them at a time", "blocks", 1, """void *malloc(unsigned);
void free(void *);
int main(void)
{
    static char *held[64];
    int i, sum = 0;
    for (i = 0; i < COUNT; i++) {
        free(held[i % 64]);
        held[i % 64] = malloc(16);
        held[i % 64][i % 16] = i;
        sum += held[i % 64][i % 16];
    }
    for (i = 0; i < 64; i++)
        free(held[i]);
    return sum == 1;
}
""")

GROWING = Case("a block that grows by 16 bytes at a time, up to 32 KiB", "blocks", 1, """void *malloc(unsigned);
void free(void *);
int main(void)
{
    char *held = malloc(16), *more;
    int i;
    held[0] = 1;
    for (i = 0; i < COUNT; i++) {
        more = malloc(16 + i % 2048 * 16);
        more[0] = held[0];
        free(held);
        held = more;
    }
    free(held);
    return 0;
}
""")

# An arm of a `switch` whose statements are many, with a loop that does not run; the sum stays below 2^20.
ARM = """        case NUMBER:
            sum = sum + NUMBER & 0xFFFFF;
            if (sum > 0xFFFFF) {
                for (k = 0; k < 8; k++)
                    sum ^= k;
                sum = sum * 3 + NUMBER; sum = sum * 5 + NUMBER; sum = sum * 7 + NUMBER; sum = sum * 9 + NUMBER;
            }
            break;
"""

SWITCH = Case("a switch of 100 long arms", "turns", 1, """int main(void)
{
    unsigned sum = 0, i, k;
    for (i = 0; i < COUNT; i++) {
        switch (i % 100) {
ARMS        }
    }
    return sum > 0xFFFFF;
}
""".replace("ARMS", "".join(ARM.replace("NUMBER", str(number)) for number in range(100))))

CASES = [EMPTY, SIMPLE, CALLS, CONDITIONS, CHASE, BLOCKS, GROWING, SWITCH]


# ---- ways to run a program


class Interpreter:
    name = "layc interp"

    def __init__(self, layc):
        self.layc = layc

    def words(self, folder, path):
        return [self.layc, "interp", "--turns", str(TURNS), path]


class Tcc:
    name = "tcc -run"

    def words(self, folder, path):
        return ["tcc", "-w", "-run", path]


class Gcc:
    name = "gcc -O0"

    def words(self, folder, path):
        program = os.path.join(folder, "program")
        done = checking.run([*GCC, "-O0", "-w", "-o", program, path], seconds=120)
        return [program] if done.returncode == 0 else ["false"]


def run_of(way, folder, case, count):
    """Least seconds and greatest peak memory of some runs; None where the program does not end well."""
    path = os.path.join(folder, "t.c")
    with open(path, "w") as f:
        f.write(case.with_count(count))
    words = way.words(folder, path)
    seen = [measured(words, folder) for _ in range(RUNS)]
    if any(status != 0 for status, _, _ in seen):
        return None
    return min(seconds for _, seconds, _ in seen), max(memory for _, _, memory in seen)


def long_run(way, folder, case, least):
    """A count with which a run takes so long, and the run."""
    count, found = FIRST_COUNT, run_of(way, folder, case, FIRST_COUNT)
    while found and found[0] < least and 4 * count <= GREATEST_COUNT:
        count *= 4
        found = run_of(way, folder, case, count)
    return count, found


def show(way, folder, case, least):
    nothing, (count, found) = run_of(way, folder, case, 0), long_run(way, folder, case, least)
    if nothing is None or found is None:
        print(f"  {way.name}: does not end with status 0")
        return
    seconds = max(found[0] - nothing[0], 1e-6)
    rate = count * case.each / seconds / 1e6
    print(f"  {way.name}: {rate:.2f} million {case.unit} a second ({count} turns, {seconds:.2f} s); peak memory {found[1]:.1f} MiB")


def show_growth(way, folder, least):
    """Time and memory for one, two and four times as many blocks: linear time doubles, and memory stays."""
    count, _ = long_run(way, folder, BLOCKS, least / 4)
    seen = [(times, run_of(way, folder, BLOCKS, times * count)) for times in [1, 2, 4]]
    told = [f"{times * count} in {found[0]:.2f} s with {found[1]:.1f} MiB" if found else f"{times * count}: no end" for times, found in seen]
    print(f"  {way.name}: " + "; ".join(told))


def interpreter(folder):
    """The interpreter, where it ends a program that does nothing."""
    layc = built("layc")
    if layc and run_of(Interpreter(layc), folder, EMPTY, 0):
        return [Interpreter(layc)]
    print("skipped: `layc interp`, which interprets no program yet")
    return []


def main():
    words = sys.argv[1:]
    least = next((float(word) for word in words if word[0].isdigit()), LEAST_SECONDS)
    if not have(TIME):
        return 1
    with tempfile.TemporaryDirectory() as folder:
        ways = [way for way, tool in [(Tcc(), "tcc"), (Gcc(), "gcc")] if have(tool)]
        if "--stand-in" not in words:
            ways = interpreter(folder) + ways
        for case in CASES:
            print(case.name + ":")
            for way in ways:
                show(way, folder, case, least)
        print("as many blocks, twice and four times as many:")
        for way in ways:
            show_growth(way, folder, least)
    return 0


if __name__ == "__main__":
    sys.exit(main())
