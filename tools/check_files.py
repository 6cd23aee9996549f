#!/usr/bin/env python3
"""Tries the files that `layc compile --plain` makes of C programs.

- Each program of `tools/programs` and of `examples/interp`: its file ends by `layc run` as its sources end by `layc interp`, and by QEMU's user-mode emulator
  as well, on its input and on beginnings of it.
- Random programs by csmith, 300 or as many as a word on the command line says: the same, and by GCC's code for the machine at hand.
- Programs that ask for more room than there is: their files break where they ask, after what was written before, and so does a count of records whose bytes
  are no word; one that asks for less goes on.
- readelf and objdump take each of these files, and by objdump each word of its code is an instruction of RV32IM.
- Allocations, as QEMU logs the entries and ends of the routines: the requests are those of the source, each block that is given lies in the heap at a multiple
  of 16, has the bytes that were asked for, and meets no other, and what is released was given.

What needs a tool that is missing is skipped, and the tool is named."""

import os
import re
import sys
import tempfile

import checking
import csmith_programs
import instructions
from check_interp import EXAMPLES, PROGRAMS, Compiled, is_short, makes_programs, programs, read
from checking import EMULATOR, LAYC, READELF, check, have

COUNT, MOST_SEEDS_EACH = 300, 10
STEPS = 10**10
DUMP = "riscv64-unknown-elf-objdump"
BREAKS, SIGTRAP = 125, 5
HEAP, HEAP_END = 0x20000000, 0x30000000
INSTRUCTION = rf"^ .*:\t[0-9a-f]{{8}} +\t(?:{'|'.join(instructions.TABLE)})(?:\t|$)"

# Each writes A, asks for room, and writes B where it has it: what is asked for, and whether there is so much with the heap and the stack that are usual.
ASKS = [
    ("calloc(1000, 1000);", True),
    ("calloc(65536, 65536);", False),
    ("calloc(70000, 140000);", False),
    ("calloc(65536, 65535);", False),
    ("malloc(4000000000u);", False),
    ("for (;;) malloc(1000000);", False),
    ("malloc(1000 + deep(1000));", True),
    ("malloc(1000 + deep(-1));", False),
]
ASKING = """void *malloc(unsigned bytes);
void *calloc(unsigned count, unsigned size);
int putchar(int byte);
int deep(int n) { int row[64]; row[0] = n; return n == 0 ? 0 : deep(n - 1) + row[0] - n; }
int main(void) { putchar(65); ASK putchar(66); return 7; }
"""


def compiled(folder, names):
    """The path of the ELF file of a program; None where there is none."""
    path = os.path.join(folder, "program.elf")
    if os.path.exists(path):
        os.remove(path)
    done = checking.run([LAYC, "compile", "-o", path, "--plain", *names], cwd=folder)
    if done.returncode != 0 or not done.stdout.startswith(b"layc report 1\n"):
        return None
    os.chmod(path, 0o755)
    return path


def runners():
    return [[LAYC, "run", "--steps", str(STEPS)]] + [[EMULATOR]] * (EMULATOR in tools)


def ends(words, text, folder):
    done = checking.run(words, input=text, cwd=folder)
    return done.returncode, done.stdout


def check_taken(what, path):
    """That readelf and objdump take a file, and that by objdump each word of its code is an instruction of RV32IM."""
    made, code = read(path), path + ".code"
    with open(code, "wb") as f:
        f.write(made[0x2000 : 0x1000 + int.from_bytes(made[68:72], "little")])
    for tool, words, pattern, count in [
        (READELF, ["-hlW", path], r"^  LOAD ", 4),
        (DUMP, ["-p", path], r"^\s*LOAD off|file format elf32-littleriscv$", 5),
        (DUMP, ["-D", "-b", "binary", "-m", "riscv:rv32", "-M", "no-aliases", code], INSTRUCTION, os.path.getsize(code) // 4),
    ]:
        if tool in tools:
            done = checking.run([tool, *words])
            found = len(re.findall(pattern, done.stdout.decode(), re.M))
            check((found, done.stderr) == (count, b""), f"{what}: {tool} {words[0]} shows {found} of {count} {done.stderr!r}")


def check_file(what, folder, names, inputs, wanted_of):
    path = compiled(folder, names)
    check(path is not None, f"{what}: no file")
    if path is None:
        return
    check_taken(what, path)
    for text in inputs:
        wanted = wanted_of(text)
        for words in runners():
            got = ends([*words, path], text, folder)
            check(got == wanted, f"{what} on {len(text)} bytes by {words[0]}: {got[0]}, {len(got[1])} bytes; wanted {wanted[0]}, {len(wanted[1])} bytes")


def check_programs(folder):
    for program in programs(PROGRAMS) + programs(EXAMPLES):
        names = [os.path.join(program.folder, name) for name in program.names]
        check_file(program.name, folder, names, program.inputs(), lambda text: ends([LAYC, "interp", *names], text, folder))


def check_room(folder):
    for ask, has_room in ASKS:
        csmith_programs.write_files(folder, {"t.c": ASKING.replace("ASK", ask)})
        path = compiled(folder, ["t.c"])
        check(path is not None, f"{ask}: no file")
        if path is None:
            continue
        for words in runners():
            wanted = (7, b"AB") if has_room else (-SIGTRAP if words == [EMULATOR] else BREAKS, b"A")
            got = ends([*words, path], b"", folder)
            check(got == wanted, f"{ask} by {words[0]}: {got}; wanted {wanted}")


def check_random(folder, count):
    compared, seed, plain = 0, 0, Compiled("-O0", 60)
    while compared < count and seed < MOST_SEEDS_EACH * count:
        seed += 1
        text = csmith_programs.program(seed, small=seed % 3 == 0)
        if text is None or not csmith_programs.is_strict(text):
            continue
        csmith_programs.write_files(folder, {"t.c": text})
        if not is_short(folder, "t.c"):
            continue
        wanted = plain.run(folder, ["t.c"])
        check_file(f"seed {seed}", folder, ["t.c"], [b""], lambda _: (wanted.status, wanted.output))
        compared += 1
    print(f"{compared} random programs of {seed} seeds are compared")


# ---- allocations

# A text, and its requests in their order.
REQUESTS = [
    ("""void *malloc(unsigned); void free(void *); struct Z { int h; int c0; int c1; };
int main(void) { int i, j, s = 0; struct Z *p = malloc(0 * sizeof(struct Z)); free(p); free(0); p = malloc(sizeof(struct Z)); p->h = 1; p->c0 = 2;
p->c1 = 3; for (i = 0; i < 10; i++) for (j = 0; j < 10; j++) s += p->h; s += p->c0 + p->c1; free(p); return s; }
""", ["malloc 0", "malloc 12"]),
    ("""void *malloc(unsigned); void *calloc(unsigned, unsigned); void free(void *); struct N { struct N *next; short n; } *all;
int main(void) { int i; char *text = calloc(5, 20); struct N *p; for (i = 0; i < 3; i++) { p = malloc(sizeof(struct N)); p->next = all; all = p; }
p = calloc(2, sizeof *p); free(text); while (all) { p = all->next; free(all); all = p; } return 0; }
""", ["calloc 5 20", "malloc 8", "malloc 8", "malloc 8", "calloc 2 8"]),
]
ROUTINES = {0x10400: "malloc", 0x10600: "calloc", 0x105FC: "gives", 0x107FC: "gives", 0x10800: "free"}


def events_of(folder, path):
    """The routines of the heap that a run entered or left, with the first two registers of arguments, of which the first has an answer too."""
    log = os.path.join(folder, "log")
    ranges = ",".join(f"{place:#x}+4" for place in ROUTINES)
    checking.run([EMULATOR, "-d", "exec,cpu,nochain", "-dfilter", ranges, "-D", log, path])
    found = re.findall(r"^ pc +(\w+)\n(?: .*\n)*?.* x10/a0 +(\w+) x11/a1 +(\w+)\n", read(log).decode(), re.M)
    return [(ROUTINES.get(pc, hex(pc)), a, b) for pc, a, b in (map(lambda word: int(word, 16), row) for row in found)]


def check_requests(folder):
    for text, wanted in REQUESTS:
        csmith_programs.write_files(folder, {"t.c": text})
        path, asked, blocks = compiled(folder, ["t.c"]), [], []
        for what, a, b in events_of(folder, path):
            if what == "free":
                check(a in [0] + [start for start, _ in blocks], f"{a:#x} is released, which was not given")
            elif what == "gives":
                check(a % 16 == 0 and all(end <= a for _, end in [(0, HEAP), *blocks]) and a + size <= HEAP_END, f"{asked[-1]} gives {a:#x} behind {blocks}")
                blocks.append((a, a + size))
            else:
                size = a if what == "malloc" else a * b
                asked.append(f"malloc {a}" if what == "malloc" else f"calloc {a} {b}")
        check(asked == wanted and len(blocks) == len(asked), f"requests {asked}, {len(blocks)} blocks; wanted {wanted}")


def main():
    global tools
    count = next((int(word) for word in sys.argv[1:] if word.isdigit()), COUNT)
    if not checking.built("layc"):
        print("skipped: layc cannot be built")
        return 1
    tools = [tool for tool in [EMULATOR, READELF, DUMP] if have(tool)]
    with tempfile.TemporaryDirectory() as folder:
        check_programs(folder)
        check_room(folder)
        if EMULATOR in tools:
            check_requests(folder)
        if makes_programs() and csmith_programs.have_csmith():
            check_random(folder, count)
    print(f"check_files: {checking.made - checking.failed} checks hold, {checking.failed} do not")
    return 1 if checking.failed else 0


tools = []

if __name__ == "__main__":
    sys.exit(main())
