"""What the cross-checks share: counting checks, finding the tools of others, building and running
the programs of this repository."""

import os
import shutil
import subprocess
import sys

import building

HERE = os.path.dirname(os.path.dirname(os.path.abspath(__file__)))


def named_by_environment(crate):
    """The program that the environment has under the crate's name in capitals, as `LAYC=unproved/layc`; or None."""
    path = os.environ.get(crate.upper())
    return os.path.abspath(path) if path else None


LAYC = named_by_environment("layc") or os.path.join(HERE, "layc")

EMULATOR = "qemu-riscv32"
OBJDUMP = "riscv64-linux-gnu-objdump"
READELF = "readelf"
# The first of them that is there compiles C without a C library for 32 bits; the second has no
# libgcc for them.
COMPILERS = ["riscv64-unknown-elf-gcc", "riscv64-linux-gnu-gcc"]
VALGRIND = "valgrind"
TIME = "time"
PACKAGES = {
    "clang": "clang",
    "csmith": "csmith",
    "gcc": "gcc",
    "ld.lld": "lld",
    "make": "make",
    "tcc": "tcc",
    EMULATOR: "qemu-user",
    OBJDUMP: "binutils-riscv64-linux-gnu",
    READELF: "binutils",
    COMPILERS[0]: "gcc-riscv64-unknown-elf",
    COMPILERS[1]: "gcc-riscv64-linux-gnu",
    "riscv64-unknown-elf-objdump": "binutils-riscv64-unknown-elf",
    VALGRIND: "valgrind",
    TIME: "time",
}

USAGE = b"""usage: layc compile -o OUT [--profile P] [--plain] [--heap MIB] [--stack MIB] FILE...
       layc profile -o P [--turns N] FILE...
       layc interp [--turns N] FILE...
       layc run [--steps N] ELF
"""
USAGE_STATUS, OUTSIDE_STATUS, PROGRAM_STATUS = 120, 121, 122
ELF_STATUS, TRAP_STATUS, LIMIT_STATUS, MEMORY_STATUS = 124, 125, 126, 127

# ---- checks

SHOWN_FAILURES = 50
made = 0
failed = 0


def check(condition, what):
    """Counts a check; one that fails is shown, up to a number of them."""
    global made, failed
    made += 1
    if not condition:
        failed += 1
        if failed <= SHOWN_FAILURES:
            print("FAILED:", what, flush=True)


# ---- tools of others


def installs(package):
    """Installs a package of the distribution, where that is allowed."""
    if not shutil.which("apt-get") or os.geteuid() != 0:
        return
    quiet = dict(stdout=subprocess.DEVNULL, stderr=subprocess.DEVNULL, env=dict(os.environ, DEBIAN_FRONTEND="noninteractive"))
    subprocess.run(["apt-get", "update"], **quiet)
    subprocess.run(["apt-get", "install", "-y", package], **quiet)


def is_there(tool):
    """Whether the tool is there; a missing one is installed where that is allowed."""
    if not shutil.which(tool):
        installs(PACKAGES[tool])
    return shutil.which(tool) is not None


def have(tool):
    """Whether the tool is there; one that is not is named."""
    found = is_there(tool)
    if not found:
        print(f"skipped: what needs {tool}, which is not installed")
    return found


def compiler():
    """The C compiler for RV32IM; where there is none, it is named."""
    found = next(filter(shutil.which, COMPILERS), None) or next(filter(is_there, COMPILERS), None)
    if found is None:
        print(f"skipped: what needs {' or '.join(COMPILERS)}, neither of which is installed")
    return found


# ---- programs of this repository


def run(words, seconds=600, **more):
    """Runs a program and keeps its output; its input is empty where none is given. A program that
    does not end in time has no status."""
    if "input" not in more:
        more.setdefault("stdin", subprocess.DEVNULL)
    try:
        return subprocess.run(words, capture_output=True, timeout=seconds, **more)
    except subprocess.TimeoutExpired as late:
        return subprocess.CompletedProcess(words, None, late.stdout or b"", b"(does not end)")


def built(crate):
    """The program of a crate: the one that the environment names, or else the proved one, built where it is missing or older than its sources; None where
    it cannot be. Which of them it is, is printed."""
    named = named_by_environment(crate)
    if named:
        print(f"{crate}: {os.environ[crate.upper()]}, by the environment: nothing says that it is proved", flush=True)
        return named if os.path.exists(named) else None
    if not building.is_built(crate):
        building.build(crate, lambda text: print(f"{crate}: {text}", file=sys.stderr, flush=True))
    program = building.program_of(crate)
    if not os.path.exists(program):
        return None
    print(f"{crate}: the proved build" + ("" if building.is_built(crate) else " of older sources"), flush=True)
    return program
