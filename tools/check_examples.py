#!/usr/bin/env python3
"""Tries the examples that are compiled, `examples/firmware` by its Makefile, and the headers of `include/`.

- Each program of `examples/` writes what stands beside it and ends as by GCC, under `layc interp` and, as `layc compile --plain` makes it, under `layc run` and
  QEMU.
- The report on `examples/records.c`, by a profile too, and the plan of `examples/plans.c` are those of docs/REPORT.md.
- `make interp`, `make profile`, `make run`, `make qemu` and `make run-gcc` of the firmware write what stands in `firmware.expected`. So does what GCC makes of
  the same files for the machine at hand, with its own headers.
- The program in `headers/`, which includes every header twice, writes under `layc interp` and compiled what it writes by GCC with its own headers.
- Each header serves alone, in two files of one program.

What needs a tool that is missing is skipped, and the tool is named."""

import os
import re
import sys
import tempfile

import checking
from check_interp import makes_programs, read
from checking import EMULATOR, LAYC, check
from csmith_programs import GCC, write_files

HERE = os.path.dirname(os.path.abspath(__file__))
EXAMPLES, HEADERS = os.path.join(checking.HERE, "examples"), os.path.join(HERE, "headers")
FIRMWARE = os.path.join(EXAMPLES, "firmware")
INCLUDE = os.path.join(checking.HERE, "include")
FIRMWARE_FILES, HEADER_FILES = ["main.c", "ring.c", "channels.c"], ["every.1.c", "every.2.c"]


def by_gcc(folder, names, out, text=b""):
    """What the program writes by GCC with its own headers."""
    program = os.path.join(out, "program")
    made = checking.run([*GCC, "-w", "-o", program, *names], cwd=folder)
    return checking.run([program], input=text) if made.returncode == 0 else made


def preprocessed(folder, names, out):
    """The files as layc takes them, with the headers of `include/`."""
    paths = [os.path.join(out, name[:-2] + ".i") for name in names]
    for name, path in zip(names, paths):
        done = checking.run(["gcc", "-E", "-nostdinc", "-I", INCLUDE, "-o", path, name], cwd=folder)
        check(done.returncode == 0, f"{name} is not preprocessed: {done.stderr.decode()}")
    return paths


def check_same(what, done, wanted):
    got = done.stdout, done.returncode, done.stderr
    check(got == (wanted, 0, b""), f"{what}: status {done.returncode}, {len(done.stdout)} bytes, errors {done.stderr[-300:]!r}; wanted {len(wanted)} bytes")


def input_of(name):
    path = os.path.join(EXAMPLES, name[:-2] + ".in")
    return read(path) if os.path.exists(path) else b""


def check_compiled(name, out, has_gcc, has_qemu):
    path = os.path.join(out, "program.elf")
    made = checking.run([LAYC, "compile", "-o", path, "--plain", name], cwd=EXAMPLES)
    is_made = made.returncode == 0 and made.stdout.startswith(b"layc report 1\n") and made.stderr == b""
    check(is_made, f"{name} is not compiled: {made.stderr!r}")
    if not is_made:
        return
    os.chmod(path, 0o755)
    text = input_of(name)
    runs = [[LAYC, "interp", name], [LAYC, "run", path], *[[EMULATOR, path]] * has_qemu]
    ends = [checking.run(words, cwd=EXAMPLES, input=text) for words in runs]
    ends += [by_gcc(EXAMPLES, [name], out, text)] * has_gcc
    wanted = read(os.path.join(EXAMPLES, name[:-2] + ".expected")), ends[0].returncode, b""
    for done in ends:
        got = done.stdout, done.returncode, done.stderr
        check(got == wanted, f"{name}: {done.args[0]} gives {got}, wanted {wanted}")


def blocks_of_report():
    """The texts that stand apart in docs/REPORT.md, each line without the spaces before it."""
    text = read(os.path.join(checking.HERE, "docs", "REPORT.md")).decode()
    return [re.sub("(?m)^    ", "", block) for block in re.findall(r"(?m)(?:^    .*\n)+", text)]


def report_after(words, blocks):
    """What the document says that a command writes."""
    return [block.partition("\n")[2].encode() for block in blocks if block.startswith("$ " + words)]


def check_reports(out):
    """The reports of docs/REPORT.md: that of a command, with a profile too, and the plan that `front_rows` prints."""
    blocks = blocks_of_report()
    path, profile = os.path.join(out, "records"), os.path.join(out, "records.profile")
    wanted = report_after("layc compile", blocks)
    check(len(wanted) == 1, "docs/REPORT.md has another number of compilations than one")
    source = "examples/records.c"
    check_same("the report on examples/records.c", checking.run([LAYC, "compile", "-o", path, source], cwd=checking.HERE), wanted[0])
    made = checking.run([LAYC, "profile", "-o", profile, source], cwd=checking.HERE, input=input_of("records.c"))
    check_same("the profile of examples/records.c", made, read(os.path.join(EXAMPLES, "records.expected")))
    check_same("the report by the profile", checking.run([LAYC, "compile", "-o", path, "--profile", profile, source], cwd=checking.HERE), wanted[0])
    made = checking.run([LAYC, "run", path], input=input_of("records.c"))
    check_same("the run of examples/records.c", made, read(os.path.join(EXAMPLES, "records.expected")))
    rows = checking.built("front_rows")
    if rows is None:
        print("skipped: the plan of examples/plans.c, for the program of rows is not built")
        return
    lines = read(os.path.join(EXAMPLES, "plans.c")).decode().splitlines()
    row = "plan plans\nfile plans.c\n" + "".join(f"|{line}\n" for line in lines)
    plan = next(block for block in blocks if block.startswith("record Mass"))
    check_same("the plan of examples/plans.c", checking.run([rows], input=row.encode()), f"plans:\nlayc report 1\n{plan}\n".encode())


def make(target, out):
    return checking.run(["make", "-s", f"LAYC={LAYC}", f"OUT={out}", target], cwd=FIRMWARE)


def check_firmware(out, has_gcc, has_qemu):
    wanted = read(os.path.join(FIRMWARE, "firmware.expected"))
    if has_gcc:
        check_same("the firmware by GCC", by_gcc(FIRMWARE, FIRMWARE_FILES, out, read(os.path.join(FIRMWARE, "firmware.in"))), wanted)
    if not checking.have("make"):
        return
    check_same("make interp", make("interp", out), wanted)
    check_same("make profile", make("profile", out), wanted)
    profile = os.path.join(out, "firmware.profile")
    check(os.path.exists(profile) and read(profile).startswith(b"layc-profile 1\n"), "make profile leaves no profile")
    check_same("make run", make("run", out), wanted)
    if has_qemu:
        check_same("make qemu", make("qemu", out), wanted)
    if checking.compiler():
        check_same("make run-gcc", make("run-gcc", out), wanted)


def check_headers(out):
    wanted = by_gcc(HEADERS, HEADER_FILES, out)
    check(wanted.returncode == 0, f"the program of headers by GCC: {wanted.stderr.decode()}")
    units, path = preprocessed(HEADERS, HEADER_FILES, out), os.path.join(out, "headers.elf")
    check_same("the program of headers", checking.run([LAYC, "interp", *units]), wanted.stdout)
    made = checking.run([LAYC, "compile", "-o", path, "--plain", *units])
    check(made.returncode == 0 and made.stdout.startswith(b"layc report 1\n"), f"the program of headers is not compiled: {made.stderr!r}")
    check_same("the run of the file of headers", checking.run([LAYC, "run", path]), wanted.stdout)


def check_alone(out, header):
    """That two files which include no other header are a program."""
    line = f"#include <{header}>\n"
    write_files(out, {"once.c": line + "int main(void) { return 0; }\n", "twice.c": line * 2})
    check_same(header, checking.run([LAYC, "interp", *preprocessed(out, ["once.c", "twice.c"], out)]), b"")


def main():
    if checking.built("layc") is None:
        print("skipped: the examples, for the compiler is not built")
        return 0
    if not checking.have("gcc"):
        return 0
    has_gcc, has_qemu = makes_programs(), checking.have(EMULATOR)
    if not has_gcc:
        print("skipped: the comparison with GCC, which makes no program for its 32-bit target here (package gcc-multilib)")
    with tempfile.TemporaryDirectory() as out:
        for name in sorted(name for name in os.listdir(EXAMPLES) if name.endswith(".c")):
            check_compiled(name, out, has_gcc, has_qemu)
        check_reports(out)
        check_firmware(out, has_gcc, has_qemu)
        for header in sorted(os.listdir(INCLUDE)):
            check_alone(out, header)
        if has_gcc:
            check_headers(out)
    print(f"check_examples: {checking.made - checking.failed} checks hold, {checking.failed} do not")
    return 1 if checking.failed else 0


if __name__ == "__main__":
    sys.exit(main())
