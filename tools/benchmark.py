#!/usr/bin/env python3
"""Measures the machine of `layc run`, as LLVM builds it.

- Instructions of the host for each instruction of the guest, on a loop of loads, stores, arithmetic
  and branches: the difference between a longer and a shorter run of it, so that the start does not
  count. They are counted by `perf stat`, or by callgrind where the host does not count them.
- Wall time and peak memory on the loop, beside `qemu-riscv32` on the same file.
- The same of a program that ends at once, without and with 64 MiB of stack and 256 MiB of heap.

The number of the loop's guest instructions is worked out from its text, and compared with the limit
of steps within which `layc run` ends. The one word on the command line, if there is one, is how many
millions of guest instructions the timed run makes.
"""

import os
import re
import subprocess
import sys
import tempfile
import time

from checking import EMULATOR, TIME, VALGRIND, built, compiler, have, run
from check_ends import leave
from check_programs import TARGET
from elf_files import READ, WRITE, Segment, code_file

MILLION = 1_000_000
TIMED_MILLIONS = 50
COUNTED_MILLIONS = 1, 3
RUNS = 3
STARTS = 10

# The number of turns is in the data, so that one text serves every length.
LOOP = """
# Walks over a table of words: loads of every width, stores, arithmetic, and branches of which one is
# taken in every second turn and one in every turn but the last.
	.option norelax
	.globl _start
_start:
	la s0, table
	la s1, turns
	lw s1, 0(s1)
	li s2, 0
	li s3, 0x1234567
turn:
	andi t0, s2, 1020
	add t1, s0, t0
	lw t2, 0(t1)
	add s3, s3, t2
	slli t3, s3, 5
	xor s3, s3, t3
	srli t3, s3, 7
	xor s3, s3, t3
	sw s3, 0(t1)
	lbu t4, 1(t1)
	lh t5, 2(t1)
	mul t6, t4, t5
	add s3, s3, t6
	sb t6, 3(t1)
	andi t0, s1, 1
	beqz t0, even
	sub s3, s3, t4
	sltu t0, s3, t5
	add s3, s3, t0
even:
	addi s2, s2, 4
	addi s1, s1, -1
	bnez s1, turn
	andi a0, s3, 127
	li a7, 93
	ecall
	.data
	.balign 4
turns:
	.word {turns}
table:
	.space 1024
"""

# What the assembler makes of the text: `la` is two instructions, as is the wide `li`.
BEFORE_LOOP = 2 + 2 + 1 + 1 + 2
EACH_TURN, ODD_TURN_MORE = 19, 3
AFTER_LOOP = 3


def guest_instructions(turns):
    """How many instructions the loop program makes; the turns are counted down, so half of an even
    number of them are odd."""
    return BEFORE_LOOP + EACH_TURN * turns + ODD_TURN_MORE * (turns // 2) + AFTER_LOOP


def turns_for(instructions):
    """The least even number of turns that make so many instructions."""
    turns = 2
    each_pair = 2 * EACH_TURN + ODD_TURN_MORE
    return max(turns, 2 * -(-(instructions - BEFORE_LOOP - AFTER_LOOP) // each_pair))


def loop_program(gcc, folder, millions):
    """Builds the loop with at least so many millions of instructions; its path and their number."""
    turns = turns_for(millions * MILLION)
    source, program = [os.path.join(folder, f"loop{millions}.{end}") for end in ["s", "elf"]]
    with open(source, "w") as f:
        f.write(LOOP.format(turns=turns))
    subprocess.run([gcc, *TARGET, "-o", program, source], check=True)
    return program, guest_instructions(turns)


def confirms(layc, program, steps):
    """Whether the program ends in exactly so many steps."""
    enough = run([layc, "run", "--steps", str(steps), program])
    too_few = run([layc, "run", "--steps", str(steps - 1), program])
    return enough.stderr == b"" and too_few.stderr == f"layc: step limit {steps - 1} reached\n".encode()


# ---- instructions of the host


def counted_by_perf(words):
    """How many instructions of the host a program makes, or None where the host does not count them."""
    done = run(["perf", "stat", "-x", ",", "-e", "instructions:u", *words])
    found = re.search(rb"^(\d+),[^,]*,instructions", done.stderr, re.M)
    return int(found.group(1)) if found else None


def counted_by_callgrind(words, folder):
    out = os.path.join(folder, "callgrind.out")
    done = run([VALGRIND, "--tool=callgrind", f"--callgrind-out-file={out}", *words])
    found = re.search(rb"Collected : (\d+)", done.stderr)
    return int(found.group(1)) if found else None


def counter(folder):
    """A way to count instructions of the host, with its name."""
    try:
        if counted_by_perf(["true"]):
            return "perf", counted_by_perf
    except FileNotFoundError:
        pass
    return ("callgrind", lambda words: counted_by_callgrind(words, folder)) if have(VALGRIND) else None


def show_host_instructions(gcc, layc, folder):
    found = counter(folder)
    if not found:
        return
    name, count = found
    counts = []
    for millions in COUNTED_MILLIONS:
        program, guest = loop_program(gcc, folder, millions)
        host = count([layc, "run", program])
        if host is None:
            print(f"{name} gives no number")
            return
        confirmed = "as" if confirms(layc, program, guest) else "NOT AS"
        print(f"{guest} guest instructions, {confirmed} --steps has it: {host} host instructions, by {name}")
        counts.append((guest, host))
    (guest, host), (more_guest, more_host) = counts
    each = (more_host - host) / (more_guest - guest)
    print(f"host instructions for each guest instruction: {each:.2f}; for the start: {host - each * guest:.0f}")


# ---- time and memory


def measured(words, folder):
    """Status, seconds and peak memory in MiB of one run. The memory is what `time` reports, since
    a child of this program would have the memory of this program where that is more."""
    report = os.path.join(folder, "peak")
    start = time.monotonic()
    done = run([TIME, "--quiet", "-f", "%M", "-o", report, *words])
    seconds = time.monotonic() - start
    with open(report) as f:
        return done.returncode, seconds, int(f.read()) / 1024


def least(words, runs, folder):
    """Status, least seconds and greatest peak memory of several runs, as a text and the seconds."""
    seen = [measured(words, folder) for _ in range(runs)]
    seconds = min(seconds for _, seconds, _ in seen)
    memory = max(memory for _, _, memory in seen)
    return f"status {seen[0][0]}, {seconds * 1000:.1f} ms, peak memory {memory:.1f} MiB", seconds


def show_time(gcc, layc, folder, millions):
    program, guest = loop_program(gcc, folder, millions)
    print(f"the loop of {guest} guest instructions, least of {RUNS} runs:")
    for words in [[layc, "run", program]] + [[EMULATOR, program]] * have(EMULATOR):
        text, seconds = least(words, RUNS, folder)
        print(f"  {os.path.basename(words[0])}: {text}, {guest / seconds / MILLION:.1f} million guest instructions a second")


def show_start(layc, folder):
    """A program that ends at once, without and with the segments of a compiled file."""
    stack = Segment(0x10000000, b"", 64 << 20, READ | WRITE)
    heap = Segment(0x20000000, b"", 256 << 20, READ | WRITE)
    print(f"a program that ends at once, least of {STARTS} runs:")
    for name, others in [("no other segments", []), ("64 MiB of stack and 256 MiB of heap", [stack, heap])]:
        path = os.path.join(folder, "start.elf")
        with open(path, "wb") as f:
            f.write(code_file(leave(0), *others))
        print(f"  {name}: {least([layc, 'run', path], STARTS, folder)[0]}")


def main():
    millions = int(sys.argv[1]) if len(sys.argv) > 1 else TIMED_MILLIONS
    layc, gcc = built("layc"), compiler()
    if layc is None or gcc is None or not have(TIME):
        print("the program layc, a compiler for RV32IM, or time is missing")
        return 1
    with tempfile.TemporaryDirectory() as folder:
        show_start(layc, folder)
        show_time(gcc, layc, folder, millions)
        show_host_instructions(gcc, layc, folder)
    return 0


if __name__ == "__main__":
    sys.exit(main())
