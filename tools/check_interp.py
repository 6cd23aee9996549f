#!/usr/bin/env python3
"""Compares `layc interp` with tools that this project did not write.

- Each program of `programs/` under the interpreter and by GCC for 32 bits: output and status, on its input and on beginnings of it. The sanitizers of
  GCC and Clang have nothing to say of these programs.
- Each program of `undefined/`, whose first line says which step is undefined and where: the interpreter's text names it, and a sanitizer reports the
  line, but for those that no sanitizer sees. So with `examples/undefined`, whose texts `docs/MEANING.md` shows.
- The programs of `examples/interp`: each prints what stands in its `.expected`, by GCC too.
- All these programs are taken by the front end.
- Random programs of csmith under both, in one file and in several.
- Streams that fail, input that comes byte by byte, and the limit of turns.
- Peak memory: of living bytes, of pointers, of blocks that have ended, and of blocks of other sizes in their place.

Words: `--stand-in` asks GCC's optimised code in the place of the interpreter, to try the script itself; `--turns N` is the limit of turns of a run,
`--time N` the seconds for one, and another number says how many random programs are compared."""

import os
import re
import resource
import select
import subprocess
import sys
import tempfile

import benchmark
import check_front
import checking
import csmith_programs
import sanitizers
from checking import LIMIT_STATUS, OUTSIDE_STATUS, TRAP_STATUS, check
from csmith_programs import GCC

HERE = os.path.dirname(os.path.abspath(__file__))
PROGRAMS, UNDEFINED = os.path.join(HERE, "programs"), os.path.join(HERE, "undefined")
EXAMPLES, UNDEFINED_EXAMPLES = [os.path.join(checking.HERE, "examples", name) for name in ["interp", "undefined"]]
MEANING = os.path.join(checking.HERE, "docs", "MEANING.md")
RANDOM_PROGRAMS = 200
# A random program that GCC's plain code needs longer for is passed over; some never end.
SECONDS_OF_RANDOM, MOST_SEEDS_EACH = 0.02, 10
TURNS, SECONDS = 1_000_000_000, 300


# ---- the interpreter, and GCC


class End:
    """How a run ends: its output, status and errors."""

    def __init__(self, done):
        self.output, self.status, self.errors = done.stdout, done.returncode, done.stderr

    def shown(self):
        return f"status {self.status}, {len(self.output)} bytes ending in {self.output[-40:]!r}, errors {self.errors[-120:]!r}"


class Interpreter:
    def __init__(self, layc, turns, seconds):
        self.layc, self.turns, self.seconds = layc, turns, seconds

    def run(self, folder, names, text=b"", turns=None):
        words = [self.layc, "interp", "--turns", str(turns or self.turns), *names]
        return End(checking.run(words, cwd=folder, input=text, seconds=self.seconds))


class Compiled:
    """GCC's code in the place of the interpreter."""

    def __init__(self, level, seconds):
        self.level, self.seconds = level, seconds

    def run(self, folder, names, text=b""):
        with tempfile.TemporaryDirectory() as place:
            path = os.path.join(place, "program")
            built = checking.run([*GCC, self.level, "-w", "-o", path, *names], cwd=folder, seconds=120)
            return End(checking.run([path], input=text, seconds=self.seconds) if built.returncode == 0 else built)


def has_interpreter(interpreter):
    with tempfile.TemporaryDirectory() as folder:
        csmith_programs.write_files(folder, {"t.c": "int main(void) { return 7; }\n"})
        return interpreter.run(folder, ["t.c"]).status == 7


def compare(what, got, wanted):
    same = (got.output, got.status, got.errors) == (wanted.output, wanted.status, b"")
    check(same, f"{what}: {got.shown()}; wanted {wanted.shown()}")


# ---- programs of our own


class Program:
    """A program of a folder: its name, its files in their order, and its input."""

    def __init__(self, folder, name, names):
        self.folder, self.name, self.names = folder, name, sorted(names)
        path = os.path.join(folder, name + ".in")
        self.text = read(path) if os.path.exists(path) else None

    def files(self):
        return {name: read(os.path.join(self.folder, name)).decode() for name in self.names}

    def inputs(self):
        """The input, and beginnings of it."""
        return [b""] if self.text is None else [self.text, self.text[: len(self.text) // 2], self.text[:1], b""]


def read(path):
    with open(path, "rb") as f:
        return f.read()


def programs(folder):
    names = {}
    for name in sorted(os.listdir(folder)):
        if name.endswith(".c"):
            names.setdefault(name.split(".")[0], []).append(name)
    return [Program(folder, name, files) for name, files in names.items()]


def check_program(ask, plain, program):
    for text in program.inputs():
        wanted = plain.run(program.folder, program.names, text)
        check(wanted.status is not None and wanted.status >= 0 and wanted.errors == b"", f"{program.name}: GCC's code: {wanted.shown()}")
        if ask:
            compare(f"{program.name} on {len(text)} bytes", ask.run(program.folder, program.names, text), wanted)


def check_accepted(program):
    """That the front end takes the program, also where nothing interprets it yet."""
    answer = check_front.front_answer(program.files())
    check(check_front.is_taken(answer), f"{program.name}: the front end answers {answer!r}")


def check_expected(plain, program):
    """That an example prints what stands beside it."""
    got = plain.run(program.folder, program.names, program.text or b"")
    check(got.output == read(os.path.join(program.folder, program.name + ".expected")), f"{program.name}: GCC's code: {got.shown()}")


def check_clean(tools, program):
    """That no sanitizer has anything to say of the program."""
    inputs = program.inputs()
    for sanitizer, said in zip(tools, sanitizers.reports(tools, program.files(), inputs)):
        check(said == [""] * len(inputs), f"{program.name}: {sanitizer.name} says {str(said)[:300]}")


# ---- undefined programs


EXPECTED = re.compile(r"/\* expect: (\w+) at line (\d+) \*/\n")
# What a sanitizer says of each kind.
SAID = {
    "Division": "division|FPE",
    "Shift": "shift exponent",
    "Null": "null pointer",
    "Dead": "use-after-(free|scope|return)",
    "Outside": "buffer-overflow",
    "Align": "misaligned",
    "ReadOnly": "SEGV",
    "Empty": "uninitialized",
    "Subscript": "out of bounds",
    "Range": "buffer-(over|under)flow|offset|invalid-pointer-pair",
    "TwoBlocks": "invalid-pointer-pair",
    "Call": "control flow integrity",
    "NoValue": "uninitialized",
    "Free": "free|SEGV",
    "Overlap": "overlap",
    "Huge": "allocation size|calloc parameters overflow",
}
# What no sanitizer sees, with the reason.
UNSEEN = {
    "pointer_as_bytes.c": "the bytes of a pointer have values for C99",
    "pointer_as_number.c": "sanitizers know no effective types",
    "pointer_of_another_type.c": "sanitizers know no effective types",
    "pointer_compared.c": "the bytes of a pointer have values for C99",
    "edge_of_end.c": "equality has a value for C99, though it does not say which",
    "edge_of_zero_bytes.c": "equality has a value for C99, though it does not say which",
    "dead_equality.c": "sanitizers look at accesses, and at the order of pointers, not at their equality",
    "outside_zero_bytes.c": "the sanitizers' malloc(0) gives one byte",
    "Pointer.c": "the bytes of a pointer have values for C99",
    "Edge.c": "equality has a value for C99, though it does not say which",
}


def kind_and_line(name, text):
    found = EXPECTED.match(text)
    check(found is not None, f"{name}: the first line does not say what is expected")
    return (found.group(1), int(found.group(2))) if found else (None, 0)


def text_of_undefined(name, line, kind):
    return f"layc: {name}:{line}: undefined: {kind}"


def check_undefined(ask, tools, folder, name):
    text = read(os.path.join(folder, name)).decode()
    kind, line = kind_and_line(name, text)
    if ask:
        got, wanted = ask.run(folder, [name]), text_of_undefined(name, line, kind).encode() + b"\n"
        check((got.status, got.errors) == (TRAP_STATUS, wanted), f"{name}: {got.shown()}, wanted {wanted!r}")
    reports = sanitizers.first_reports(tools, name, text)
    fits = [said for at, said in reports if at == line and re.search(SAID.get(kind, "$."), said)]
    if name in UNSEEN:
        check(reports == [], f"{name} is seen by a sanitizer: {reports}")
    elif fits or len(tools) == len(sanitizers.SANITIZERS):
        check(fits != [], f"{name}: {kind} at line {line}, the sanitizers say {reports}")


def check_page():
    """That the page on the meaning shows the step and the text of each example, and no other."""
    page, shown = read(MEANING).decode(), 0
    for name in sorted(os.listdir(UNDEFINED_EXAMPLES)):
        text = read(os.path.join(UNDEFINED_EXAMPLES, name)).decode()
        kind, line = kind_and_line(name, text)
        step = text.split("\n")[line - 1].strip()
        row = [each for each in page.split("\n") if f"`{text_of_undefined(name, line, kind)}`" in each]
        check(len(row) == 1 and row[0].startswith(f"| `{step}` |"), f"docs/MEANING.md: {name} with {step!r}, the page has {row}")
        check(name == kind + ".c", f"examples/undefined: {name} is of {kind}")
        shown += 1
    check(page.count(": undefined: ") == shown and shown == len(SAID) + len({"Pointer", "Edge"}), f"docs/MEANING.md: {shown} kinds are shown")


# ---- random programs


def user_seconds():
    return resource.getrusage(resource.RUSAGE_CHILDREN).ru_utime


def is_short(folder, name):
    """Whether GCC's code of a file ends soon."""
    built = checking.run([*GCC, "-w", "-o", "timed", name], cwd=folder, seconds=120)
    before = user_seconds()
    done = checking.run(["./timed"], cwd=folder, seconds=2)
    return built.returncode == 0 and done.returncode is not None and user_seconds() - before < SECONDS_OF_RANDOM


# Equality of pointers to objects that have ended, or to edges of objects, has no value here; csmith looks at accesses alone.
OWN = re.compile(rb"layc: (\S+):(\d+): undefined: (Dead|Edge)\n$")


def is_own_equality(end, text):
    found = OWN.match(end.errors)
    if not found:
        return False
    line = presumed_lines(text).get(int(found.group(2)), "")
    return "==" in line or "!=" in line


def presumed_lines(text):
    """The lines of the file that the markers name, by their numbers there."""
    lines, number = {}, 1
    for line in text.split("\n"):
        marker = re.match(r'# (\d+) "', line)
        if marker:
            number = int(marker.group(1))
        else:
            lines[number] = lines.get(number, "") + line
            number += 1
    return lines


def compare_random(ask, plain, seed, text):
    with tempfile.TemporaryDirectory() as folder:
        csmith_programs.write_files(folder, {"t.c": text})
        if not is_short(folder, "t.c"):
            return False
        wanted, got = plain.run(folder, ["t.c"]), ask.run(folder, ["t.c"])
        if is_own_equality(got, text):
            print(f"passed over: seed {seed}, {got.errors.decode().strip()}")
            return False
        compare(f"seed {seed}", got, wanted)
        if seed % 4 == 0:
            parts = csmith_programs.split(text, 2 + seed % 3, seed)
            csmith_programs.write_files(folder, parts)
            compare(f"seed {seed} in {len(parts)} files", ask.run(folder, list(parts)), wanted)
    return True


def check_random(ask, plain, count):
    compared, seed = 0, 0
    while compared < count and seed < MOST_SEEDS_EACH * count:
        seed += 1
        text = csmith_programs.program(seed, small=seed % 3 == 0)
        if text is not None and csmith_programs.is_strict(text):
            compared += compare_random(ask, plain, seed, text)
    print(f"{compared} random programs of {seed} seeds are compared")


# ---- streams and limits


DECLARED = "int getchar(void);\nint putchar(int);\n"
SMALL = {
    "echo.c": DECLARED + "int main(void) { int c; while ((c = getchar()) != -1) putchar(c); return 5; }\n",
    "writes.c": DECLARED + "int main(void) { int i; for (i = 0; i < 3; i++) putchar('a' + i); return 6; }\n",
    "reads.c": DECLARED + "int main(void) { return getchar() == -1 ? 8 : 9; }\n",
    "silent.c": "int main(void) { return 6; }\n",
    "late.c": DECLARED + "int main(void) { int zero = 0; putchar('b'); return 1 / zero; }\n",
    "dots.c": DECLARED + "int main(void) { for (;;) putchar('.'); }\n",
    "deep.c": "int f(int n) { if (n == 0) return 0; return f(n - 1) + 1; } int main(void) { return f(99998) == 99998; }\n",
    "deeper.c": "int f(int n) { if (n == 0) return 0; return f(n - 1) + 1; } int main(void) { return f(100000) == 100000; }\n",
}
WRITE_FAILED, READ_FAILED = (OUTSIDE_STATUS, b"layc: write failed\n"), (OUTSIDE_STATUS, b"layc: read failed\n")
LATE = TRAP_STATUS, b"layc: late.c:3: undefined: Division\n"


def shell(layc, folder, name, redirected):
    """Status and errors of a run under a shell's redirections."""
    done = subprocess.run(["bash", "-c", f'exec "$0" interp {name} {redirected}', layc], cwd=folder, stderr=subprocess.PIPE, timeout=SECONDS)
    return done.returncode, done.stderr


def check_redirected(layc, folder):
    """Streams that fail, under programs that use them and under one that does not."""
    cases = {
        "writes.c": {">&-": WRITE_FAILED, "> /dev/full": WRITE_FAILED, "> /dev/null <&-": (6, b"")},
        "reads.c": {"<&-": READ_FAILED, "< .": READ_FAILED, "< /dev/null >&-": (8, b"")},
        "silent.c": {">&-": (6, b""), "<&-": (6, b""), "< . > /dev/full": (6, b"")},
        "echo.c": {"< /dev/null > /dev/full": (5, b""), "< echo.c > /dev/full": WRITE_FAILED},
        "late.c": {"> /dev/null": LATE, "> /dev/null 2>&-": (TRAP_STATUS, b""), "> /dev/null 2> /dev/full": (TRAP_STATUS, b"")},
    }
    for name, ends in cases.items():
        for redirected, end in ends.items():
            got = shell(layc, folder, name, redirected)
            check(got == end, f"{name} with {redirected}: interp gives {got}, wanted {end}")


def check_broken_pipe(layc, folder):
    reader, writer = os.pipe()
    os.close(reader)
    done = subprocess.run([layc, "interp", "writes.c"], cwd=folder, stdout=writer, stderr=subprocess.PIPE, timeout=SECONDS)
    os.close(writer)
    got = done.returncode, done.stderr
    check(got == WRITE_FAILED, f"a pipe that nobody reads: interp gives {got}, wanted {WRITE_FAILED}")


def is_answered_at_once(layc, folder):
    """Whether each byte of the input comes back before the next one is sent."""
    with subprocess.Popen([layc, "interp", "echo.c"], cwd=folder, stdin=subprocess.PIPE, stdout=subprocess.PIPE, bufsize=0) as process:
        for byte in [b"a", b"\n", b"\0", b"\xff"]:
            process.stdin.write(byte)
            if not select.select([process.stdout], [], [], 30)[0] or process.stdout.read(1) != byte:
                process.kill()
                return False
        process.stdin.close()
        return process.stdout.read() == b"" and process.wait() == 5


def check_ends(ask, folder):
    """Output that stands before an end, and the limits of turns and of calls."""
    wanted = {
        (1000, "dots.c"): (b"." * 999, LIMIT_STATUS, b"layc: turn limit 1000 reached\n"),
        (1, "dots.c"): (b"", LIMIT_STATUS, b"layc: turn limit 1 reached\n"),
        (4, "writes.c"): (b"abc", 6, b""),
        (3, "writes.c"): (b"ab", LIMIT_STATUS, b"layc: turn limit 3 reached\n"),
        (1, "late.c"): (b"b", *LATE),
        (TURNS, "deep.c"): (b"", 1, b""),
        (TURNS, "deeper.c"): (b"", LIMIT_STATUS, b"layc: room Depth passed: 100001\n"),
    }
    for (turns, name), end in wanted.items():
        got = ask.run(folder, [name], turns=turns)
        check((got.output, got.status, got.errors) == end, f"{name} with {turns} turns: {got.shown()}, wanted {end}")


def check_streams(ask):
    with tempfile.TemporaryDirectory() as folder:
        csmith_programs.write_files(folder, SMALL)
        check_redirected(ask.layc, folder)
        check_broken_pipe(ask.layc, folder)
        check(is_answered_at_once(ask.layc, folder), "a byte is answered before the next one comes")
        check_ends(ask, folder)
        long = bytes(i * i % 251 for i in range(100_000))
        got = ask.run(folder, ["echo.c"], long)
        check((got.output, got.status) == (long, 5), f"a copy of 100000 bytes: {got.shown()}")


# ---- memory

MEBI = 1 << 20
# What each living byte, each pointer and each block that was made may take, and what a run may take beside them.
LIVING_BYTE, POINTER, BLOCK, BESIDE = 4, 40, 8, 8 * MEBI


class Load:
    """A program, with the living bytes, the pointers and the blocks that it has at most."""

    def __init__(self, living, pointers, blocks, body):
        self.living, self.pointers, self.blocks = living, pointers, blocks
        self.text = f"void *malloc(unsigned);\nvoid free(void *);\n{body}"

    def most(self):
        return LIVING_BYTE * self.living + POINTER * self.pointers + BLOCK * self.blocks + BESIDE


LOADS = {
    # Nearly all bytes that may live, and ten million blocks that have ended.
    "ended.c": Load(33_554_000, 0, 10_000_000, """int main(void)
{
    int i;
    for (i = 0; i < 4; i++)
        malloc(8388500);
    for (i = 0; i < 10000000; i++)
        free(malloc(16));
    return 0;
}
"""),
    "small.c": Load(4_000_000, 0, 1_000_000, """int main(void)
{
    int i;
    for (i = 0; i < 1000000; i++)
        *(int *)malloc(4) = i;
    return 0;
}
"""),
    "list.c": Load(8_000_000, 1_000_000, 1_000_000, """struct Node { int value; struct Node *next; } *first;
int main(void)
{
    int i;
    for (i = 0; i < 1000000; i++) {
        struct Node *new = malloc(sizeof(struct Node));
        new->value = i;
        new->next = first;
        first = new;
    }
    return 0;
}
"""),
    # The same bytes again and again, in blocks of other sizes.
    "phases.c": Load(5_000_000, 250_000, 468_750, """char *held[250000];
int main(void)
{
    int size, i;
    for (size = 16; size <= 128; size *= 2) {
        for (i = 0; i < 4000000 / size; i++) {
            held[i] = malloc(size);
            held[i][0] = i;
        }
        for (i = 0; i < 4000000 / size; i++)
            free(held[i]);
    }
    return 0;
}
"""),
    # Two of three blocks end, and those that are left are not moved together before others come.
    "holes.c": Load(4_000_000, 100_000, 200_000, """char *held[100000];
int main(void)
{
    int i;
    for (i = 0; i < 100000; i++)
        held[i] = malloc(36);
    for (i = 0; i < 100000; i++)
        if (i % 3 != 0)
            free(held[i]);
    for (i = 0; i < 60000; i++)
        *(int *)malloc(36) = i;
    return 0;
}
"""),
    "growing.c": Load(65_536, 2, 2049, """int main(void)
{
    char *held = malloc(16), *more;
    int i;
    held[0] = 1;
    for (i = 0; i < 2048; i++) {
        more = malloc(16 + i * 16);
        more[0] = held[0];
        free(held);
        held = more;
    }
    return 0;
}
"""),
}


def check_memory(ask):
    if not checking.have(checking.TIME):
        return
    with tempfile.TemporaryDirectory() as folder:
        csmith_programs.write_files(folder, {name: load.text for name, load in LOADS.items()})
        for name, load in LOADS.items():
            status, _, peak = benchmark.measured([ask.layc, "interp", os.path.join(folder, name)], folder)
            check(status == 0 and peak * MEBI <= load.most(), f"{name}: status {status}, {peak:.1f} MiB, at most {load.most() / MEBI:.1f}")


# ---- all of it


class Words:
    def __init__(self, words):
        self.stand_in, self.turns, self.seconds, self.count = "--stand-in" in words, TURNS, SECONDS, RANDOM_PROGRAMS
        at = 0
        while at < len(words):
            if words[at] in ("--turns", "--time"):
                setattr(self, "turns" if words[at] == "--turns" else "seconds", int(words[at + 1]))
                at += 1
            elif words[at].isdigit():
                self.count = int(words[at])
            at += 1


def interpreter(layc, words):
    if words.stand_in:
        return Compiled("-O2", words.seconds)
    found = Interpreter(layc, words.turns, words.seconds)
    if layc and has_interpreter(found):
        return found
    print("skipped: comparisons with `layc interp`, which interprets no program yet; `--stand-in` tries the script with GCC")
    return None


def makes_programs():
    """Whether GCC makes programs for its 32-bit target; what that needs is installed where that is allowed."""
    def makes_one():
        with tempfile.TemporaryDirectory() as folder:
            csmith_programs.write_files(folder, {"t.c": "int main(void) { return sizeof(void *); }\n"})
            return Compiled("-O0", 60).run(folder, ["t.c"]).status == 4

    if not checking.have("gcc"):
        return False
    if not makes_one():
        checking.installs("gcc-multilib")
    return makes_one()


def main():
    words = Words(sys.argv[1:])
    if not makes_programs():
        print("skipped: GCC makes no program for its 32-bit target here (package gcc-multilib)")
        return 0
    layc = None if words.stand_in else checking.built("layc")
    ask, plain, tools = interpreter(layc, words), Compiled("-O0", words.seconds), sanitizers.that_work()
    for folder in [PROGRAMS, EXAMPLES, UNDEFINED, UNDEFINED_EXAMPLES] if layc else []:
        for program in programs(folder):
            check_accepted(program)
    for program in programs(PROGRAMS) + programs(EXAMPLES):
        check_program(ask, plain, program)
        check_clean(tools, program)
    for program in programs(EXAMPLES):
        check_expected(plain, program)
    for folder in [UNDEFINED, UNDEFINED_EXAMPLES]:
        for name in sorted(os.listdir(folder)):
            check_undefined(None if words.stand_in else ask, tools, folder, name)
    check_page()
    if ask and csmith_programs.have_csmith():
        check_random(ask, plain, words.count)
    if ask and not words.stand_in:
        check_streams(ask)
        check_memory(ask)
    print(f"check_interp: {checking.made - checking.failed} comparisons hold, {checking.failed} do not")
    return 1 if checking.failed else 0


if __name__ == "__main__":
    sys.exit(main())
