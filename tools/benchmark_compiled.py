#!/usr/bin/env python3
"""Measures what `layc compile --plain` makes, and how fast it does so.

- For ten programs of `programs/`, the steps of their files under `layc run`, and of what GCC makes of the same sources for RV32IM with -O0 and with -O1, on a
  small runtime in C; and the bytes of the programs' code, without the runtimes. All of them write the same.
- The processor seconds of `layc compile --plain` on random C text of 250 and 500 KB beside `gcc -O0 -c` and `tcc -c`, as `benchmark_front.py` has them.

The steps of a run are the least limit within which `layc run` ends."""

import itertools
import os
import sys
import tempfile

import benchmark_front
import checking
import csmith_programs
from check_interp import PROGRAMS, programs
from check_programs import GUEST, OF_C, TARGET, libgcc
from checking import LAYC, LIMIT_STATUS

# What each program is of.
MEASURED = {
    "bit_sets": "bit array",
    "linked_list": "list",
    "binary_tree": "tree",
    "matrix": "matrix",
    "hash_chains": "hash",
    "strings": "strings",
    "queens": "recursion",
    "dispatch": "table of functions",
    "memory_pool": "allocation",
    "virtual_machine": "switch",
}
LEVELS = ["-O0", "-O1"]
# Sums keep their low bits and char is unsigned, as in layc's C.
MEANING = ["-fwrapv", "-funsigned-char", "-fno-builtin", "-w"]
RUNTIME = [os.path.join(GUEST, "start.s"), os.path.join(GUEST, "support.c"), os.path.join(checking.HERE, "examples", "firmware", "board.c")]
ALLOCATION = """
static unsigned char heap[1 << 20] __attribute__((aligned(16)));
static unsigned used;
void *malloc(unsigned size) { void *block = heap + used; used += (size + 15) / 16 * 16; return block; }
void *calloc(unsigned count, unsigned size) { return malloc(count * size); }
void free(void *block) { }
"""
SIZES = [250_000, 500_000]


# ---- steps


def ends_within(path, steps, text):
    done = checking.run([LAYC, "run", "--steps", str(steps), path], input=text)
    return None if done.returncode == LIMIT_STATUS and done.stderr.startswith(b"layc: step limit ") else (done.stdout, done.returncode)


def measured_end(path, text):
    """How a program ends, and in how many steps."""
    low, high = 0, 1024
    while ends_within(path, high, text) is None:
        low, high = high, 2 * high
    while high - low > 1:
        middle = (low + high) // 2
        low, high = (middle, high) if ends_within(path, middle, text) is None else (low, middle)
    return ends_within(path, high, text), high


# ---- code


def by_layc(program, folder):
    """The file that layc makes, and the bytes of its code."""
    path = os.path.join(folder, "layc.elf")
    names = [os.path.join(program.folder, name) for name in program.names]
    done = checking.run([LAYC, "compile", "-o", path, "--plain", "--heap", "1", "--stack", "1", *names])
    assert done.returncode == 0, done.stderr
    with open(path, "rb") as f:
        return path, int.from_bytes(f.read()[68:72], "little") - 0x1000


def by_gcc(gcc, level, program, folder):
    """The same by GCC."""
    path, part = os.path.join(folder, "gcc.elf"), os.path.join(folder, "program.o")
    words = [gcc, *TARGET, *OF_C, *MEANING, level]
    library = libgcc(gcc)
    names = [os.path.join(program.folder, name) for name in program.names]
    for made in [["-c", "-o", part, *names], ["-o", path, part, *RUNTIME, os.path.join(folder, "allocation.c"), *([library] if library else [])]]:
        done = checking.run([*words, *made])
        assert done.returncode == 0, done.stderr
    rows = [line.split() for line in checking.run([gcc[: -len("gcc")] + "size", "-A", part]).stdout.decode().splitlines()]
    return path, sum(int(row[1]) for row in rows if row and row[0].startswith(".text"))


def row(name, kind, steps, ratios, sizes):
    return f"{name:17}{kind:20}" + "".join(f"{each:>9}" for each in [*steps, *ratios, *sizes])


def show_programs(gcc, folder):
    """Each row has the steps by layc and by GCC, how many by layc come to one by GCC, and the bytes."""
    csmith_programs.write_files(folder, {"allocation.c": ALLOCATION})
    makers = [by_layc] + [lambda program, folder, level=level: by_gcc(gcc, level, program, folder) for level in LEVELS]
    heads = ["layc", *("gcc " + level for level in LEVELS)]
    print(row("", "steps, and bytes", heads, ["to " + level for level in LEVELS], heads))
    for program in programs(PROGRAMS):
        if program.name not in MEASURED:
            continue
        ends, steps, sizes = [], [], []
        for make in makers:
            path, size = make(program, folder)
            end, count = measured_end(path, program.text or b"")
            ends.append(end)
            steps.append(count)
            sizes.append(size)
        assert ends == ends[:1] * len(ends), f"{program.name}: {ends}"
        print(row(program.name, MEASURED[program.name], steps, [f"{steps[0] / count:.2f}" for count in steps[1:]], sizes), flush=True)


# ---- speed


def show_speed(folder):
    seconds = benchmark_front.command_seconds
    timers = {"layc compile": seconds([LAYC, "compile", "--plain", "-o", "text.elf"])}
    timers["gcc -O0 -c"] = seconds([*csmith_programs.GCC, "-w", "-O0", "-c", "-o", "text.o", "-x", "cpp-output"])
    if checking.have("tcc"):
        timers["tcc -c"] = seconds(["tcc", "-c", "-w", "-o", "text.o"])
    paths = []
    for size, text in zip([0, *SIZES], itertools.chain([benchmark_front.ONE_LINE], benchmark_front.texts(SIZES))):
        csmith_programs.write_files(folder, {f"text{size}.c": text})
        paths.append(os.path.join(folder, f"text{size}.c"))
    benchmark_front.show(timers, paths[0], paths[1:], benchmark_front.measured(timers, paths))


def main():
    if checking.built("layc") is None:
        return 1
    gcc = checking.compiler()
    with tempfile.TemporaryDirectory() as folder:
        if gcc:
            show_programs(gcc, folder)
        if csmith_programs.have_csmith():
            show_speed(folder)
    return 0


if __name__ == "__main__":
    sys.exit(main())
