#!/usr/bin/env python3
"""Compares the machine, the ELF reader and the instruction coder with tools that this project did
not write, and with tables of this folder.

- Programs by GCC and generated assembly programs: `layc run` against QEMU's user-mode emulator.
- Words: `decode` and `encode` against `objdump`.
- Damaged ELF files: `layc run` against the list of refused fields in elf_files.
- Traps, breaks, limits, words and faults of streams: `layc run` against what each case says.

A tool that is missing is named, and what needs it is skipped.
"""

import random
import shutil
import sys
import tempfile

import checking
from check_ends import check_ends
from check_headers import check_headers
from check_programs import check_programs
from check_words import check_words

SEED = 20261127


def main():
    layc = checking.built("layc")
    if layc is None and not shutil.which("rt"):
        print("skipped: the compiler is not built, and there is no rt to build it")
        return 0
    checking.check(layc is not None, "the program layc is not built")
    with tempfile.TemporaryDirectory() as folder:
        if layc is not None:
            check_programs(layc, folder, random.Random(SEED))
            check_headers(layc, folder, random.Random(SEED + 1))
            check_ends(layc, folder)
        check_words(random.Random(SEED + 2))
    print(f"machine cross-check: {checking.made} checks, {checking.failed} failed")
    return 1 if checking.failed else 0


if __name__ == "__main__":
    sys.exit(main())
