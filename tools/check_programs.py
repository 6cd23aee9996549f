"""Compares output and exit status of `layc run` with those of QEMU's user-mode emulator on the same
files: C programs of the folder guest, by GCC with and without optimisation, and generated assembly."""

import os
import struct

from checking import EMULATOR, HERE, check, compiler, have, run
from guest_assembly import EVERY_INSTRUCTION, random_code

GUEST = os.path.join(HERE, "tools", "guest")
RANDOM_PROGRAMS, RANDOM_STEPS = 30, 500
# Registers that hold the place of the next result, so that every other register is used by some.
POINTERS = [3, 9, 30]

# One of the compilers makes code for any address where no option says otherwise.
TARGET = ["-march=rv32im", "-mabi=ilp32", "-nostdlib", "-static", "-fno-pie", "-no-pie"]
# The compiler must not make a call of memcpy out of the body of memcpy.
OF_C = ["-std=c99", "-ffreestanding", "-fno-tree-loop-distribute-patterns"]
LEVELS = ["-O0", "-O2"]


# ---- building


def compiled(gcc, path, words):
    """Compiles to a program under the path, and says whether that succeeded."""
    done = run([gcc, *TARGET, "-o", path, *words])
    check(done.returncode == 0, f"{gcc} {' '.join(words)}: {done.stderr.decode()}")
    return done.returncode == 0


def libgcc(gcc):
    """The compiler's own library for this target, or None; another target's is no use."""
    path = run([gcc, *TARGET, "-print-libgcc-file-name"]).stdout.decode().strip()
    return path if os.path.exists(path) and "rv32im" in path else None


# ---- the comparison


def ends(words, path):
    """Output and status of a program on the input of that file."""
    with open(path, "rb") as f:
        done = run(words, stdin=f)
    return done.stdout, done.returncode, done.stderr


def compare(layc, program, folder, text, what, results=()):
    """Runs both on the same input; `results` says what each word of the output is."""
    path = os.path.join(folder, "input")
    with open(path, "wb") as f:
        f.write(text)
    wanted, status, _ = ends([EMULATOR, program], path)
    check(status is not None and status >= 0, f"{what}: {EMULATOR} ends with {status}")
    got, got_status, errors = ends([layc, "run", program], path)
    check((got_status, errors) == (status, b""), f"{what}: layc run ends with {got_status} {errors!r}, {EMULATOR} with {status}")
    check(got == wanted, f"{what}: {difference(got, wanted, results)}")


def difference(got, wanted, results):
    """The first place where two outputs differ."""
    at = next((i for i, (a, b) in enumerate(zip(got, wanted)) if a != b), min(len(got), len(wanted)))
    if at // 4 < len(results):
        pair = [struct.unpack("<I", (text + bytes(4))[at // 4 * 4 :][:4])[0] for text in [got, wanted]]
        return f"{results[at // 4]} is {pair[0]:#010x}, {EMULATOR} has {pair[1]:#010x}"
    return f"byte {at} of {len(got)}: {got[at : at + 20]!r}, {EMULATOR} has {wanted[at : at + 20]!r} of {len(wanted)}"


# ---- C programs


def inputs(random):
    """Inputs for the program that echoes: none, short ones, and some longer than the pieces it reads."""
    texts = [b"", b"a", b"\n", b"one line\n", b"without an end", bytes(range(256)), b"x\ny\n" * 17]
    return texts + [random.randbytes(size) for size in [71, 72, 4167, 4168, 4169, 9168, 20000]]


def check_c_programs(gcc, layc, folder, random):
    library = libgcc(gcc)
    if library is None:
        print(f"skipped: the program wide.c, for {gcc} has no library for this target")
    texts = inputs(random)
    for name in sorted(n for n in os.listdir(GUEST) if n.endswith(".c") and n != "support.c"):
        if name == "wide.c" and library is None:
            continue
        for level in LEVELS:
            program = os.path.join(folder, name + level + ".elf")
            sources = [os.path.join(GUEST, source) for source in ["start.s", "support.c", name]]
            if compiled(gcc, program, [*OF_C, level, *sources] + ([library] if library else [])):
                for text in texts if name == "echo.c" else [b""]:
                    compare(layc, program, folder, text, f"{name} {level} on {len(text)} bytes")


# ---- assembly programs


def check_assembly(gcc, layc, folder, assembly, status, what):
    source, program = os.path.join(folder, "program.s"), os.path.join(folder, "program.elf")
    with open(source, "w") as f:
        f.write(assembly.text(status))
    if compiled(gcc, program, [source]):
        compare(layc, program, folder, b"", what, assembly.results)


def check_assembly_programs(gcc, layc, folder, random):
    for make in EVERY_INSTRUCTION:
        for pointer in POINTERS if make.__name__ != "operations" else POINTERS[:1]:
            assembly = make(random, pointer)
            check_assembly(gcc, layc, folder, assembly, random.randrange(256), f"{make.__name__} with x{pointer}")
    for i in range(RANDOM_PROGRAMS):
        assembly = random_code(random, random.choice(POINTERS), RANDOM_STEPS)
        check_assembly(gcc, layc, folder, assembly, random.randrange(256), f"random code {i}")


def check_programs(layc, folder, random):
    gcc = compiler()
    if gcc and have(EMULATOR):
        check_c_programs(gcc, layc, folder, random)
        check_assembly_programs(gcc, layc, folder, random)
