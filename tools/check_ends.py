"""Checks how `layc run` ends: traps in their order, breaks, the limit of steps, exit statuses, words
that ask for nothing, and faults of files and streams. What is wanted stands beside each case."""

import os
import select
import subprocess

from checking import ELF_STATUS, LIMIT_STATUS, OUTSIDE_STATUS, TRAP_STATUS, USAGE, USAGE_STATUS, check, run
from elf_files import EXAMPLE, EXECUTE, READ, TEXT, WRITE, Segment, code_file, elf_file, with_number, words_of
from instructions import bits, word

DATA = 0x20000
ELF_LIMIT = 201326592

# ---- small programs, as lists of words


def load(register, number):
    """Puts a number into a register, by two instructions."""
    low = bits(number + 0x800, 11, 0) - 0x800
    return [word("lui", rd=register, imm=bits(number - low, 31, 12)), word("addi", rd=register, rs1=register, imm=low)]


def call(number, *arguments):
    words = load(17, number)
    for i, argument in enumerate(arguments):
        words += load(10 + i, argument)
    return words + [word("ecall")]


def read(at, count):
    return call(63, 0, at, count)


def write(at, count):
    return call(64, 1, at, count)


def leave(status):
    return call(93, status)


def after(words):
    """The address of the instruction after these words of code."""
    return TEXT + 4 * len(words)


def data_segment(content=b"", size=64, address=DATA, flags=READ | WRITE):
    return Segment(address, content, max(size, len(content)), flags)


# ---- answers


def trap(kind, at):
    return TRAP_STATUS, b"layc: trap %s at 0x%08x\n" % (kind.encode(), at)


def out_of_room(at):
    return TRAP_STATUS, b"layc: out of room at 0x%08x\n" % at


def limit(steps):
    return LIMIT_STATUS, b"layc: step limit %d reached\n" % steps


def exits(status):
    return status, b""


READ_FAILED = OUTSIDE_STATUS, b"layc: read failed\n"
WRITE_FAILED = OUTSIDE_STATUS, b"layc: write failed\n"


class Runs:
    """Runs files under `layc run` in a folder of their own."""

    def __init__(self, layc, folder):
        self.layc, self.folder = layc, folder

    def write_file(self, name, data):
        path = os.path.join(self.folder, name)
        with open(path, "wb") as f:
            f.write(data)
        return path

    def check(self, what, data, end, output=b"", words=(), **more):
        """The file ends so, with this output."""
        path = self.write_file("ends.elf", data)
        self.check_words(what, ["run", *words, path], end, output, **more)

    def check_words(self, what, words, end, output=b"", **more):
        done = run([self.layc, *words], cwd=self.folder, seconds=60, **more)
        got = (done.returncode, done.stderr), done.stdout
        check(got == (end, output), f"{what}: layc gives {got}, wanted {(end, output)}")


# ---- single words


def one_word(number):
    """The example with one word of code in place of its six."""
    data = EXAMPLE[:84]
    for at in [68, 72]:
        data = with_number(data, at, 4, 4)
    return data + words_of([number])


def check_single_words(runs):
    runs.check("the example", EXAMPLE, trap("Misaligned", 0x10014))
    rows = [
        (0x00000073, trap("Call", 0x10000)),
        (0x00100073, out_of_room(0x10000)),
        (0x00000000, trap("Illegal", 0x10000)),
        (0x00001073, trap("Illegal", 0x10000)),
        (0x0020006F, trap("Jump", 0x10000)),
        (0x00000013, trap("Unmapped", 0x10004)),
        (0x0000000F, trap("Unmapped", 0x10004)),
        (0x00202503, trap("Misaligned", 0x10000)),
        (0x00002503, trap("Unmapped", 0x10000)),
    ]
    for number, end in rows:
        runs.check(f"the word {number:#010x}", one_word(number), end)


ILLEGAL = {
    "all ones": 0xFFFFFFFF,
    "a compressed word": 0x00000001,
    "URET": 0x00200073,
    "MRET": 0x30200073,
    "WFI": 0x10500073,
    "ECALL with a register": 0x000000F3,
    "EBREAK with a register": 0x00108073,
    "CSRRW": 0x30001073,
    "FENCE.I": 0x0000100F,
    "JALR with funct3 1": 0x00001067,
    "a branch with funct3 2": 0x00002063,
    "a branch with funct3 3": 0x00003063,
    "LD": 0x00003003,
    "LWU": 0x00006003,
    "a load with funct3 7": 0x00007003,
    "SD": 0x00003023,
    "SLLI by 32": 0x02001013,
    "SRLI by 32": 0x02005013,
    "SRAI by 32": 0x42005013,
    "SLLI with bit 30": 0x40001013,
    "SLL with funct7 32": 0x40001033,
    "AND with funct7 32": 0x40007033,
    "ADD with funct7 2": 0x04000033,
    "MUL with funct7 33": 0x42000033,
    "ADDIW": 0x0000001B,
    "ADDW": 0x0000003B,
    "LR.W": 0x1000202F,
    "FLW": 0x00002007,
}


def check_illegal(runs):
    for what, number in ILLEGAL.items():
        runs.check(what, code_file([number]), trap("Illegal", TEXT))
    runs.check("zeros after the file's bytes", elf_file([Segment(TEXT, words_of(load(5, 1)), 64, READ | EXECUTE)]), trap("Illegal", TEXT + 8))


# ---- jumps and fetches


def check_jumps(runs):
    two, three = load(5, 2), load(5, 3)
    ends = {
        "JALR to 2": (two + [word("jalr", rs1=5)], trap("Jump", after(two))),
        "JALR to 3, whose bit 0 is cleared": (three + [word("jalr", rs1=5)], trap("Jump", after(three))),
        "JALR from 3 by -2, to 0": (three + [word("jalr", rs1=5, imm=-2)], trap("Unmapped", 0)),
        "JALR to the greatest word": ([word("jalr", imm=-4)], trap("Unmapped", 0xFFFFFFFC)),
        "a branch that is taken by 6": ([word("beq", imm=6)], trap("Jump", TEXT)),
        "a branch that is not taken by 6": ([word("bne", imm=6)] + leave(9), exits(9)),
        "a branch below the code": ([word("bgeu", imm=-4)], trap("Unmapped", TEXT - 4)),
        "JAL past the code": ([word("jal", rd=1, imm=64)], trap("Unmapped", TEXT + 64)),
    }
    for what, (words, end) in ends.items():
        runs.check(what, code_file(words), end)
    into_data = load(5, DATA) + [word("jalr", rs1=5)]
    runs.check("a jump into data", code_file(into_data, data_segment(words_of(leave(1)))), trap("Unmapped", DATA))
    low = Segment(0, words_of([word("jal", imm=-4)] + leave(22)), 64, EXECUTE)
    high = Segment(0xFFFFFFFC, words_of([word("jal", imm=8)]), 4, EXECUTE)
    runs.check("a jump below 0 and one past 2^32", elf_file([low, high], 0), exits(22))


def check_fetches(runs):
    code = words_of(leave(21))
    halves = [Segment(TEXT, code[:6], 6, EXECUTE), Segment(TEXT + 6, code[6:], len(code) - 6, EXECUTE)]
    last = Segment(0xFFFFFFFC, words_of([word("addi")]), 4, EXECUTE)
    ends = {
        "an entry outside every segment": (elf_file([Segment(TEXT, b"", 16, EXECUTE)], DATA), trap("Unmapped", DATA)),
        "code that may only be read": (elf_file([Segment(TEXT, code, 64, READ)]), trap("Unmapped", TEXT)),
        "code of two bytes": (elf_file([Segment(TEXT, b"\x13\0", 2, EXECUTE)]), trap("Unmapped", TEXT)),
        "a word that lies in two segments": (elf_file(halves), exits(21)),
        "flags above the low byte": (elf_file([Segment(TEXT, code, 64, 0x100 | EXECUTE)]), exits(21)),
        "flags with an empty low byte": (elf_file([Segment(TEXT, code, 64, 0xFFFFFF00)]), trap("Unmapped", TEXT)),
        "the pc after the last word": (elf_file([last], 0xFFFFFFFC), trap("Unmapped", 0)),
    }
    for what, (data, end) in ends.items():
        runs.check(what, data, end)


def check_own_code(runs):
    """A program that writes over its own next instruction runs the new one."""
    head = load(5, word("addi", rd=10, imm=33)) + load(17, 93)
    place = after(head) + 4 * 3
    words = head + load(6, place) + [word("sw", rs1=6, rs2=5), word("addi", rd=10, imm=1), word("ecall")]
    segment = Segment(TEXT, words_of(words), 4 * len(words), READ | WRITE | EXECUTE)
    runs.check("code that is written over", elf_file([segment]), exits(33))


def check_own_code_twice(runs):
    """A loop stores an addition of 1 and then one of 16 in the place of a break, and runs each."""
    head = [word("lui", rd=10, imm=bits(TEXT, 31, 12)), word("addi", rd=15, rs1=10, imm=44), word("addi", rd=14, rs1=10, imm=52)]
    loop = [word("lw", rd=11, rs1=15), word("sw", rs1=10, rs2=11, imm=20), word("ebreak")]
    loop += [word("addi", rd=15, rs1=15, imm=4), word("bne", rs1=15, rs2=14, imm=-16)]
    words = head + loop + [word("addi", rd=10, rs1=12), word("addi", rd=17, imm=93), word("ecall")]
    words += [word("addi", rd=12, rs1=12, imm=1), word("addi", rd=12, rs1=12, imm=16)]
    segment = Segment(TEXT, words_of(words), 4 * len(words), READ | WRITE | EXECUTE)
    runs.check("code that is written over twice", elf_file([segment]), exits(17))


def check_first_registers(runs):
    """Every register is 0 at the entry."""
    words = [word("sw", rs2=r, imm=0x400 + 4 * r) for r in range(32)] + write(0x400, 128) + leave(0)
    runs.check("the first registers", code_file(words, data_segment(b"\xff" * 128, address=0x400)), exits(0), bytes(128))


# ---- loads and stores

WIDTHS = {"lb": 1, "lbu": 1, "lh": 2, "lhu": 2, "lw": 4, "sb": 1, "sh": 2, "sw": 4}


def access(name, address):
    return load(5, address) + [word(name, rs1=5)]


def check_accesses(runs):
    here = after(load(5, 0))
    for name, width in WIDTHS.items():
        for address in [DATA, DATA + 64 - width]:
            runs.check(f"{name} at {address:#x}", code_file(access(name, address) + leave(3), data_segment()), exits(3))
        for address in [0, DATA - width, DATA + 64, 2**32 - width]:
            runs.check(f"{name} at {address:#x}", code_file(access(name, address), data_segment()), trap("Unmapped", here))
        for by in range(1, width):
            for address in [DATA + by, DATA + 64 + by, by]:
                runs.check(f"{name} at {address:#x}", code_file(access(name, address), data_segment()), trap("Misaligned", here))


def check_flags(runs):
    """Loads need the flag for reading, stores that for writing, each segment by itself."""
    for flags in range(8):
        for name, needed in [("lw", READ), ("sw", WRITE)]:
            end = exits(3) if flags & needed else trap("Unmapped", after(load(5, 0)))
            runs.check(f"{name} with flags {flags}", code_file(access(name, DATA) + leave(3), data_segment(flags=flags)), end)


def check_two_segments(runs):
    """A word of memory may lie in two segments."""
    parts = [data_segment(b"ab", 2), data_segment(b"cdef", 4, DATA + 2)]
    words = access("lw", DATA)[:-1] + [word("lw", rd=6, rs1=5), word("srli", rd=10, rs1=6, imm=16)] + load(17, 93) + [word("ecall")]
    runs.check("a load from two segments", code_file(words, *parts), exits(ord("c")))
    words = load(5, DATA) + load(6, 0x64636261 + 0x01010101) + [word("sw", rs1=5, rs2=6)] + write(DATA, 6) + leave(0)
    runs.check("a store to two segments", code_file(words, *parts), exits(0), b"bcdeef")
    parts[1] = parts[1]._replace(flags=READ)
    runs.check("a store to a segment and one that may only be read", code_file(words, *parts), trap("Unmapped", after(load(5, 0) * 2)))


def check_parts_of_words(runs):
    """Loads and stores of bytes, halves and words where a word of memory lies in two segments, of which the first has five bytes."""
    parts = [data_segment(bytes(range(1, 6)), 5, 0x08000000), data_segment(bytes(range(6, 12)), 6, 0x08000005), data_segment(size=32)]
    words = load(10, 0x08000000) + [word("lw", rd=11, rs1=10, imm=4), word("lhu", rd=12, rs1=10, imm=4)] + load(13, 0x89ABCDEF)
    words += [word("sw", rs1=10, rs2=13, imm=4), word("lb", rd=14, rs1=10, imm=4), word("lh", rd=15, rs1=10, imm=4), word("sh", rs1=10, rs2=11, imm=4)]
    words += [word("lw", rd=16, rs1=10, imm=4), word("lbu", rd=5, rs1=10, imm=10)]
    words += load(6, DATA) + [word("sw", rs1=6, rs2=r, imm=4 * i) for i, r in enumerate([11, 12, 14, 15, 16, 5])]
    seen = [0x08070605, 0x0605, 0xFFFFFFEF, 0xFFFFCDEF, 0x89AB0605, 11]
    code = words + write(DATA, 24)
    runs.check("parts of words in two segments", code_file(code + leave(0), *parts), exits(0), b"".join(n.to_bytes(4, "little") for n in seen))
    behind = load(10, 0x08000000) + [word("lbu", rd=6, rs1=10, imm=11)]
    runs.check("the byte after two segments", code_file(behind, *parts), trap("Unmapped", after(behind) - 4))


def check_zeros(runs):
    """Data of four bytes, of which the file has three, stand before the code in the file."""
    for at, byte in [(0, 7), (2, 9), (3, 0), (-1, None), (4, None)]:
        words = load(11, 0x08000000) + [word("lbu", rd=10, rs1=11, imm=at)]
        end = trap("Unmapped", after(words) - 4) if byte is None else exits(byte)
        code = words + load(17, 93) + [word("ecall")]
        segments = [data_segment(b"\7\10\11", 4, 0x08000000), Segment(TEXT, words_of(code), 4 * len(code), READ | EXECUTE)]
        runs.check(f"the byte at {at} of four", elf_file(segments), end)
    words = load(11, TEXT) + [word("lbu", rd=10, rs1=11)]
    segment = Segment(TEXT, words_of(words), 4 * len(words), EXECUTE)
    runs.check("a load from code that may only be executed", elf_file([segment]), trap("Unmapped", after(words) - 4))


# ---- the three calls

ECHO = (
    read(DATA, 10)
    + [word("addi", rd=12, rs1=10)]
    + load(11, DATA)
    + load(10, 1)
    + load(17, 64)
    + [word("ecall")]
    + load(17, 93)
    + [word("ecall")]
)


def check_other_calls(runs):
    for number in [0, 1, 62, 65, 92, 94, 214, 2**31, 2**32 - 1]:
        words = call(number, 1, DATA, 1)
        runs.check(f"call {number}", code_file(words, data_segment()), trap("Call", after(words) - 4))
    for number, descriptor in [(63, 1), (63, 2), (64, 0), (64, 2), (64, 257), (63, 256), (63, 2**32 - 1)]:
        words = call(number, descriptor, DATA, 1)
        runs.check(f"call {number} on {descriptor}", code_file(words, data_segment()), trap("Call", after(words) - 4), input=b"x")
        words = call(number, descriptor, 0, 1)
        runs.check(f"call {number} on {descriptor} without a range", code_file(words), trap("Call", after(words) - 4), input=b"x")


def check_ranges(runs):
    parts = [data_segment(b"ab", 2), data_segment(b"cd", 2, DATA + 2), data_segment(b"ef", 2, DATA + 4, READ)]
    high = data_segment(b"high", 4, 0xFFFFFFFC)
    low = data_segment(b"low!", 4, 0)
    for what, words, input_, end in [
        ("a write past the end", write(DATA, 7), b"", None),
        ("a write from below", write(DATA - 1, 2), b"", None),
        ("a read into what may only be read", read(DATA + 2, 3), b"xyz", None),
        ("a long read with little input", read(DATA, 5), b"x", None),
        ("a long read without input", read(DATA, 5), b"", None),
        ("a read of 2^32 - 1 bytes", read(DATA, 2**32 - 1), b"", None),
        ("a write past 2^32", write(0xFFFFFFFC, 8), b"", None),
        ("a read past 2^32", read(0xFFFFFFFC, 5), b"", None),
        ("a write of nothing from nowhere", write(0x500, 0), b"", b""),
        ("a read of nothing to nowhere", read(0x500, 0), b"x", b""),
        ("a write of three segments", write(DATA, 6), b"", b"abcdef"),
        ("a read into two segments", read(DATA + 1, 3) + write(DATA, 6), b"xyz", b"axyzef"),
        ("a write to the end of memory", write(0xFFFFFFFC, 4), b"", b"high"),
    ]:
        end, output = (trap("Unmapped", after(words) - 4), b"") if end is None else (exits(4), end)
        runs.check(what, code_file(words + leave(4), low, *parts, high), end, output, input=input_)
    hidden = data_segment(b"hidden", flags=WRITE | EXECUTE)
    runs.check("a write of what may not be read", code_file(write(DATA, 1), hidden), trap("Unmapped", after(write(0, 0)) - 4))


def check_calls(runs):
    for text in [b"", b"a", b"abcdefghij", b"abcdefghijk", bytes(range(246, 256))]:
        given = text[:10]
        runs.check(f"an echo of {text!r}", code_file(ECHO, data_segment()), exits(len(given)), given, input=text)
    twice = read(DATA, 3) + read(DATA + 3, 40) + [word("addi", rd=10, rs1=10)] + load(17, 93) + [word("ecall")]
    runs.check("what a second read is answered", code_file(twice, data_segment()), exits(2), input=b"abcde")
    runs.check("what a read at the end is answered", code_file(twice, data_segment()), exits(0), input=b"abc")
    for status in [0, 1, 120, 127, 128, 255, 256, 511, 2**31, 2**32 - 1]:
        runs.check(f"exit with {status}", code_file(leave(status)), exits(status % 256))
    said = write(DATA, 5)
    data = data_segment(b"hello")
    runs.check("a break after output", code_file(said + [word("ebreak")], data), out_of_room(after(said)), b"hello")
    runs.check("a trap after output", code_file(said + [0], data), trap("Illegal", after(said)), b"hello")


# ---- the limit of steps

LOOP = word("jal")


def check_limits(runs):
    runs.check("a loop", one_word(LOOP), limit(1000), words=["--steps", "1000"])
    steps = len(leave(5))
    for count, end in [(steps, exits(5)), (steps + 1, exits(5)), (steps - 1, limit(steps - 1)), (1, limit(1)), (10**18, exits(5))]:
        runs.check(f"{steps} steps within {count}", code_file(leave(5)), end, words=["--steps", str(count)])
    runs.check("leading zeros", one_word(LOOP), limit(1000), words=["--steps", "1000".rjust(20, "0")])
    runs.check("a trap within one step", one_word(0), trap("Illegal", TEXT), words=["--steps", "1"])
    runs.check("a trap after one step", one_word(0x13), limit(1), words=["--steps", "1"])
    runs.check("a trap within two steps", one_word(0x13), trap("Unmapped", TEXT + 4), words=["--steps", "2"])
    said = code_file(write(DATA, 5) + [LOOP], data_segment(b"hello"))
    runs.check("output before the limit", said, limit(100), b"hello", words=["--steps", "100"])


# ---- refused files, by examples


def check_refused_files(runs):
    changes = [
        (4, 1, 2, "Class 2"),
        (18, 2, 62, "Machine 62"),
        (42, 2, 31, "HeaderSize 31"),
        (28, 4, 77, "Headers 77"),
        (52, 4, 2, "Loads 0"),
        (56, 4, 85, "FileRange 85"),
        (72, 4, 23, "Sizes 23"),
        (60, 4, 0xFFFFFFF0, "Address 4294967280"),
        (72, 4, 1342177281, "Total 1342177281"),
        (24, 4, 0x10002, "Entry 65538"),
    ]
    for at, length, number, text in changes:
        end = ELF_STATUS, f"layc: bad ELF: {text}\n".encode()
        runs.check(f"{number} at byte {at}", with_number(EXAMPLE, at, length, number), end)
    runs.check("51 bytes", EXAMPLE[:51], (ELF_STATUS, b"layc: bad ELF: Length 51\n"))
    runs.check("an empty file", b"", (ELF_STATUS, b"layc: bad ELF: Length 0\n"))


# ---- words, files and streams


def check_words_refused(runs):
    runs.write_file("good.elf", code_file(leave(1)))
    good = "good.elf"
    lists = [
        ["run"],
        ["run", good, good],
        ["run", b"\xff\xfe"],
        ["run", "--steps"],
        ["run", "--steps", "5"],
        ["run", "--help"],
        ["run", "--turns", "5", good],
        ["Run", good],
        [good],
    ]
    numbers = ["0", "x", "", "-1", "+5", "5 ", "0x10", "1.5", "1e3", "5".rjust(21, "0")]
    numbers += [str(n) for n in [10**18 + 1, 2**64 + 1, 10**20 - 1]]
    for words in lists + [["run", "--steps", number, good] for number in numbers]:
        runs.check_words(f"the words {words}", words, (USAGE_STATUS, USAGE))


def check_files(runs):
    runs.check_words("a missing file", ["run", "missing.elf"], (OUTSIDE_STATUS, b"layc: cannot read missing.elf\n"))
    runs.check_words("a directory", ["run", "."], (OUTSIDE_STATUS, b"layc: cannot read .\n"))
    path = runs.write_file("long.elf", EXAMPLE)
    os.truncate(path, ELF_LIMIT + 1)
    runs.check_words("a file past the limit", ["run", "long.elf"], (OUTSIDE_STATUS, b"layc: long.elf is too long\n"))
    os.truncate(path, ELF_LIMIT)
    runs.check_words("a file at the limit", ["run", "long.elf"], trap("Misaligned", 0x10014))
    os.remove(path)


def shell(runs, name, redirected):
    """Status and errors of a run under a shell's redirections."""
    done = subprocess.run(["bash", "-c", f'exec "$0" run {name} {redirected}', runs.layc], cwd=runs.folder, stderr=subprocess.PIPE, timeout=60)
    return done.returncode, done.stderr


def copy_of_input(count):
    """Reads so many bytes at a time and writes them, until the input ends."""
    reads = read(DATA, count)
    writes = load(17, 64) + [word("addi", rd=12, rs1=10)] + load(10, 1) + load(11, DATA) + [word("ecall")]
    loop = reads + [word("beq", rs1=10, imm=4 * (len(writes) + 2))] + writes
    return code_file(loop + [word("jal", imm=-4 * len(loop))] + leave(0), data_segment(size=4096))


def is_answered_at_once(layc, path):
    """Whether each byte of the input comes back before the next one is sent."""
    with subprocess.Popen([layc, "run", path], stdin=subprocess.PIPE, stdout=subprocess.PIPE, bufsize=0) as process:
        for byte in [b"a", b"b", b"\n"]:
            process.stdin.write(byte)
            if not select.select([process.stdout], [], [], 10)[0] or process.stdout.read(1) != byte:
                process.kill()
                return False
        process.stdin.close()
        return process.stdout.read() == b"" and process.wait() == 0


def check_pieces(runs):
    """Input longer than the pieces in which it is read, and input that comes byte by byte."""
    long = bytes(i * i % 251 for i in range(100_000))
    for count in [1, 7, 4096]:
        runs.check(f"a copy by {count} bytes", copy_of_input(count), exits(0), long, input=long)
    check(is_answered_at_once(runs.layc, runs.write_file("copy.elf", copy_of_input(1))), "a byte is answered before the next one comes")


def check_streams(runs):
    """Streams that fail, under programs that use them and under one that does not."""
    data = data_segment(b"hello")
    for name, words in [("writes", write(DATA, 5)), ("reads", read(DATA, 5)), ("silent", []), ("traps", [0])]:
        runs.write_file(name + ".elf", code_file(words + leave(6), data))
    redirections = {
        "writes": {">&-": WRITE_FAILED, "> /dev/full": WRITE_FAILED, "> /dev/null <&-": exits(6)},
        "reads": {"<&-": READ_FAILED, "< .": READ_FAILED, "< /dev/null >&-": exits(6)},
        "silent": {">&-": exits(6), "<&-": exits(6), "< . > /dev/full": exits(6)},
        "traps": {"2>&-": (TRAP_STATUS, b""), "2> /dev/full": (TRAP_STATUS, b"")},
    }
    for name, cases in redirections.items():
        for redirected, end in cases.items():
            got = shell(runs, name + ".elf", redirected)
            check(got == end, f"{name} with {redirected}: layc gives {got}, wanted {end}")


def check_broken_pipe(runs):
    reader, writer = os.pipe()
    os.close(reader)
    done = subprocess.run([runs.layc, "run", "writes.elf"], cwd=runs.folder, stdout=writer, stderr=subprocess.PIPE, timeout=60)
    os.close(writer)
    got = done.returncode, done.stderr
    check(got == WRITE_FAILED, f"a pipe that nobody reads: layc gives {got}, wanted {WRITE_FAILED}")


def check_ends(layc, folder):
    runs = Runs(layc, folder)
    for part in [
        check_single_words,
        check_illegal,
        check_jumps,
        check_fetches,
        check_own_code,
        check_own_code_twice,
        check_first_registers,
        check_accesses,
        check_flags,
        check_zeros,
        check_parts_of_words,
        check_two_segments,
        check_other_calls,
        check_ranges,
        check_calls,
        check_limits,
        check_refused_files,
        check_words_refused,
        check_files,
        check_pieces,
        check_streams,
        check_broken_pipe,
    ]:
        part(runs)
