#!/usr/bin/env python3
"""Tries the command `layc compile` from the outside.

- `readelf` shows the four segments of the memory map, for objects of several sizes and by the words on heap and stack, and the file ends with the data. Such
  files end under `layc run` and under QEMU's user-mode emulator with the status that is worked out here.
- A program that is refused leaves the file under OUT.
- Words that ask for nothing get the usage text.
- Files that cannot be read or written, an output that is closed, and a file that is written over its source.

A tool that is missing is named and skipped."""

import os
import re
import shutil
import subprocess
import sys
import tempfile

import checking
from checking import EMULATOR, LAYC, OUTSIDE_STATUS, PROGRAM_STATUS, READELF, USAGE, USAGE_STATUS, check, have, run

REPORT = b"layc report 1\n"
MIB = 1 << 20


def main_of(text):
    return b"int main(void){return " + text + b";}"


def compile_text(folder, text, *words):
    with open(os.path.join(folder, "t.c"), "wb") as f:
        f.write(text)
    return run([LAYC, "compile", "-o", "o.elf", *words, "t.c"], cwd=folder)


def read(folder, name):
    with open(os.path.join(folder, name), "rb") as f:
        return f.read()


# ---- what is compiled

# The text of a program, its status, and the bytes of its objects and strings, each rounded up to a multiple of 4.
TAKEN = {
    "an empty body": (b"int main(void){}", 0, 0),
    "a sum that wraps": (main_of(b"2147483647 + 2147483647 + 67"), 65, 0),
    "300 parentheses": (main_of(b"(" * 300 + b"7" + b")" * 300), 7, 0),
    "300 operators": (main_of(b"1" + b"+1" * 300), 301 - 256, 0),
    "4194304 bytes": (main_of(b"9").ljust(4194304), 9, 0),
    "a code of two pages": (b"int f(int n){return n;}int main(void){" + b"f(1);" * 1000 + b"return f(8);}", 8, 0),
    "objects and a string": (b'char s[5]="abcd";int g=3;int main(void){char *p="xyz";return g+p[2]-s[3];}', 3 + ord("z") - ord("d"), 8 + 4 + 4),
    "a text of a local": (b'int main(void){char s[]="123456789";return s[8];}', ord("9"), 12),
    "a long array": (b"int a[1000];int main(void){a[999]=6;return a[999]+a[0];}", 6, 4000),
}
# Words, and how many MiB of heap and of stack they ask for.
ROOM = [([], 256, 64), (["--heap", "1", "--stack=128"], 1, 128), (["--plain", "--stack", "1", "--heap=1024"], 1024, 1)]


def up(n, unit):
    return -(-n // unit) * unit


def check_segments(path, objects, heap, stack, what):
    shown = run([READELF, "-lW", path])
    row = re.compile(r"^\s*LOAD\s+(\S+)\s+(\S+)\s+(\S+)\s+(\S+)\s+(\S+)\s+([RWE ]{3})\s+0x1000$", re.M)
    found = [(int(o, 16), int(v, 16), int(f, 16), int(m, 16), flags.strip()) for o, v, p, f, m, flags in row.findall(shown.stdout.decode()) if v == p]
    text, data = found[0][2] if found else 0, up(256 + objects, 16)
    wanted = [
        (0x1000, 0x00010000, text, text, "R E"),
        (0x1000 + up(text, 0x1000), 0x08000000, data, data, "RW"),
        (0, 0x10000000, 0, stack * MIB, "RW"),
        (0, 0x20000000, 0, heap * MIB, "RW"),
    ]
    check(found == wanted and shown.stderr == b"", f"{what}: {READELF} shows {found} {shown.stderr!r}")
    check(text > 0x1000 and text % 4 == 0, f"{what}: a text of {text} bytes")
    check(b"Entry point 0x10000" in shown.stdout, f"{what}: entry")
    check(os.path.getsize(path) == wanted[1][0] + data, f"{what}: the file ends with the data")


def check_taken(folder, tools):
    path = os.path.join(folder, "o.elf")
    for what, (text, status, objects) in TAKEN.items():
        for words, heap, stack in ROOM:
            done = compile_text(folder, text, *words)
            check((done.returncode, done.stdout, done.stderr) == (0, REPORT, b""), f"{what} with {words}: {done.returncode} {done.stderr!r}")
            if READELF in tools and done.returncode == 0:
                check_segments(path, objects, heap, stack, f"{what} with {words}")
        os.chmod(path, 0o755)
        for words in [[LAYC, "run"]] + [[EMULATOR]] * (EMULATOR in tools):
            got = run([*words, path])
            check((got.returncode, got.stdout, got.stderr) == (status, b"", b""), f"{what} under {words[0]}: {got.returncode} {got.stderr!r}")


# ---- what is refused

REFUSED = {
    "an empty text": (b"", b"no function main"),
    "a large file": (b" " * (1 << 20), b"no function main"),
    "putchar undeclared": (b"int main(void){putchar(65);return 0;}", b"t.c:1: undeclared name putchar"),
    "a number past 2^64": (main_of(b"99999999999999999999999"), b"t.c:1: literal or name too wide"),
    "a zero byte": (main_of(b"0") + b"\0", b"t.c:1: unexpected byte"),
    "a byte above 127": (main_of(b"0") + b"\xff", b"t.c:1: unexpected byte"),
    "30000 parentheses": (main_of(b"(" * 30000 + b"1" + b")" * 30000), b"t.c:1: syntax error"),
    "a record without --plain": (b"struct S{int x;};" + main_of(b"0"), b"t.c: form not built yet"),
}


def check_refused(folder):
    for what, (text, told) in REFUSED.items():
        with open(os.path.join(folder, "o.elf"), "wb") as f:
            f.write(b"before")
        done = compile_text(folder, text)
        wanted = (PROGRAM_STATUS, b"", b"layc: " + told + b"\n")
        check((done.returncode, done.stdout, done.stderr) == wanted, f"{what}: answers {done.returncode} {done.stderr!r}")
        check(read(folder, "o.elf") == b"before", f"{what}: the file under OUT stays")


# ---- words, and the outside

ASK_FOR_NOTHING = [
    [],
    ["compile"],
    ["compile", "t.c"],
    ["compile", "-o", "o"],
    ["compile", "t.c", "-o"],
    ["compile", "-o", "o", "-o", "o", "t.c"],
    ["compile", "-o", "o", "-t.c"],
    ["compile", "-o", "o", "--heap", "1025", "t.c"],
    ["compile", "-o", "o", "--stack=0", "t.c"],
    ["--help"],
    ["compile", "--help"],
    ["compile", "-o", "o", b"\xff\xfe"],
    [b"\xff"],
]


def check_words(folder):
    for words in ASK_FOR_NOTHING:
        done = run([LAYC] + words, cwd=folder)
        check((done.returncode, done.stdout, done.stderr) == (USAGE_STATUS, b"", USAGE), f"the words {words}: {done.returncode} {done.stderr!r}")


def check_outside(folder):
    compile_text(folder, main_of(b"7"))
    elf = read(folder, "o.elf")

    def answers(words, status, err, what):
        done = run([LAYC, "compile", "-o", *words], cwd=folder)
        check((done.returncode, done.stderr) == (status, err), f"{what}: {done.returncode} {done.stderr!r}")

    answers(["o", "missing.c"], OUTSIDE_STATUS, b"layc: cannot read missing.c\n", "a missing file")
    answers(["o", "."], OUTSIDE_STATUS, b"layc: cannot read .\n", "a directory as FILE")
    check(not os.path.exists(os.path.join(folder, "o")), "no file is made where FILE cannot be read")
    answers(["o", "t.c", "-"], OUTSIDE_STATUS, b"layc: cannot read -\n", "a hyphen as FILE")
    answers(["o", "t.c", "t.c"], PROGRAM_STATUS, b"layc: t.c:1: main defined again, first at t.c:1\n", "two files")
    answers(["o"] + ["t.c"] * 65, PROGRAM_STATUS, b"layc: limit Files passed: 65\n", "65 files")
    answers(["", "t.c"], OUTSIDE_STATUS, b"layc: write failed\n", "an empty name as OUT")
    answers([".", "t.c"], OUTSIDE_STATUS, b"layc: write failed\n", "a directory as OUT")
    answers(["no/o", "t.c"], OUTSIDE_STATUS, b"layc: write failed\n", "OUT in a folder that is not there")
    if os.path.exists("/dev/full"):
        answers(["/dev/full", "t.c"], OUTSIDE_STATUS, b"layc: write failed\n", "a full disk")
    closed = subprocess.run(["bash", "-c", 'exec "$0" compile -o closed.elf t.c >&-', LAYC], cwd=folder, stderr=subprocess.PIPE)
    check((closed.returncode, closed.stderr) == (OUTSIDE_STATUS, b"layc: write failed\n"), f"a closed standard output: {closed.returncode} {closed.stderr!r}")
    check(read(folder, "closed.elf") == elf, "the file is whole where standard output is closed")
    shutil.copy(os.path.join(folder, "t.c"), os.path.join(folder, "self.c"))
    answers(["self.c", "self.c"], 0, b"", "OUT is FILE")
    check(read(folder, "self.c") == elf, "OUT is FILE: the file is written over its source")


def main():
    if checking.built("layc") is None and not shutil.which("rt"):
        print("skipped: the compiler is not built, and there is no rt to build it")
        return 0
    tools = [tool for tool in [EMULATOR, READELF] if have(tool)]
    with tempfile.TemporaryDirectory() as folder:
        check_taken(folder, tools)
        check_refused(folder)
        check_words(folder)
        check_outside(folder)
    print(f"cross-check: {checking.made - checking.failed} passed, {checking.failed} failed")
    return 1 if checking.failed else 0


if __name__ == "__main__":
    sys.exit(main())
