"""Generates assembly programs that use every instruction of RV32IM on operands near which results
turn. A program keeps each result in memory and in the end writes them all to its output."""

from instructions import EDGES, TABLE, names_of, random_fields, word

LOADS = {"lb": 1, "lbu": 1, "lh": 2, "lhu": 2, "lw": 4}
STORES = {"sb": 1, "sh": 2, "sw": 4}
BRANCHES = names_of("B")
OPERATIONS = names_of("R")
SHIFTS = names_of("shift")
IMMEDIATE_OPERATIONS = [name for name in names_of("I") if TABLE[name].opcode == 0x13]

IMMEDIATES = [-2048, -1, 0, 1, 2, 2047]
SHIFT_AMOUNTS = [0, 1, 2, 15, 30, 31]
UPPER_IMMEDIATES = [0, 1, 0x7FFFF, 0x80000, 0xFFFFF]
SCRATCH_BYTES = 256


class Assembly:
    """The text of a program, with what each word of its output is. `pointer` is the register that
    holds the place of the next result; code between results may use every other register."""

    def __init__(self, pointer):
        self.lines = [".option norelax", ".globl _start", "_start:", f"la x{pointer}, results"]
        self.pointer = pointer
        self.results = []
        self.labels = 0

    def add(self, *lines):
        self.lines += lines

    def keep(self, register, what):
        """Stores the register as the next result."""
        self.add(f"sw x{register}, 0(x{self.pointer})", f"addi x{self.pointer}, x{self.pointer}, 4")
        self.results.append(what)

    def label(self):
        self.labels += 1
        return f"place{self.labels}"

    def registers(self, random, count):
        """Different registers, other than x0 and the pointer."""
        return random.sample([r for r in range(1, 32) if r != self.pointer], count)

    def set(self, register, number):
        self.add(f"li x{register}, {number:#x}")

    def text(self, status):
        """The whole program: the results are its output, and then come the bytes of the scratch area."""
        leave = [f"li x10, {status}", "li x17, 93", "ecall"]
        size = 4 * len(self.results) + SCRATCH_BYTES
        write = ["la x11, results", f"li x12, {size}", "li x10, 1", "li x17, 64", "ecall"]
        scratch = [f".byte {(37 * i + 129) % 256}" for i in range(SCRATCH_BYTES)]
        data = [".data", ".balign 4", "results:", f".space {4 * len(self.results)}", "scratch:", *scratch]
        return "\n".join([".text", *self.lines, *write, *leave, *data]) + "\n"


# ---- arithmetic


def operations(random, pointer):
    """Every operation on two registers, on all pairs of edges."""
    program = Assembly(pointer)
    for name in OPERATIONS:
        for a in EDGES:
            for b in EDGES:
                left, right, to = program.registers(random, 3)
                program.set(left, a)
                program.set(right, b)
                program.add(f"{name} x{to}, x{left}, x{right}")
                program.keep(to, f"{name} of {a:#x} and {b:#x}")
    return program


def shared_registers(random, pointer):
    """Operations whose registers are the same, or x0, which stays 0."""
    program = Assembly(pointer)
    for name in OPERATIONS:
        for form in ["{0}, {0}, {1}", "{0}, {1}, {0}", "{0}, {0}, {0}", "{0}, x0, {1}", "{0}, {1}, x0", "x0, {0}, {1}", "{0}, x0, x0"]:
            one, other = program.registers(random, 2)
            program.set(one, random.choice(EDGES))
            program.set(other, random.choice(EDGES))
            operands = form.format(f"x{one}", f"x{other}")
            program.add(f"{name} {operands}")
            program.keep(one, f"{name} {operands}")
            program.keep(0, f"x0 after {name} {operands}")
    return program


def immediates(random, pointer):
    """Every operation on a register and an immediate, and every shift by an amount."""
    program = Assembly(pointer)
    cases = [(name, n) for name in IMMEDIATE_OPERATIONS for n in IMMEDIATES] + [(name, n) for name in SHIFTS for n in SHIFT_AMOUNTS]
    for name, n in cases:
        for a in EDGES:
            left, to = program.registers(random, 2)
            to = random.choice([left, to])
            program.set(left, a)
            program.add(f"{name} x{to}, x{left}, {n}")
            program.keep(to, f"{name} of {a:#x} and {n}")
        program.add(f"{name} x0, x{left}, {n}")
        program.keep(0, f"x0 after {name}")
    return program


def upper_immediates(random, pointer):
    """LUI and AUIPC, and FENCE with any fields, which does nothing."""
    program = Assembly(pointer)
    for name in ["lui", "auipc"]:
        for n in UPPER_IMMEDIATES:
            (to,) = program.registers(random, 1)
            program.add(f"{name} x{to}, {n:#x}", f"{name} x0, {n:#x}")
            program.keep(to, f"{name} of {n:#x}")
            program.keep(0, f"x0 after {name}")
    for _ in range(20):
        fields = random_fields(random, "fence")
        (to,) = program.registers(random, 1)
        program.set(to, 0x5A5A5A5A)
        program.add(f".word {word('fence', **dict(fields, rd=to)):#x}")
        program.keep(to, f"a register after FENCE {fields}")
    return program


# ---- loads and stores


def apart(random, place):
    """A distance, and the operand of `la` that is the place in the scratch area without that distance."""
    distance = random.choice(IMMEDIATES + [random.randrange(-2048, 2048)])
    return distance, f"scratch{place - distance:+d}"


def loads(random, pointer):
    program = Assembly(pointer)
    for name, width in LOADS.items():
        for place in range(0, SCRATCH_BYTES, width * (8 // width + 1)):
            base, to = program.registers(random, 2)
            to = random.choice([base, to])
            distance, address = apart(random, place)
            program.add(f"la x{base}, {address}", f"{name} x{to}, {distance}(x{base})")
            program.keep(to, f"{name} at {place}")
        program.add(f"la x{base}, scratch", f"{name} x0, 0(x{base})")
        program.keep(0, f"x0 after {name}")
    return program


def stores(random, pointer):
    """Stores, each followed by loads of the whole word; the scratch area itself is output too."""
    program = Assembly(pointer)
    for name, width in STORES.items():
        for place in range(0, SCRATCH_BYTES, width * (12 // width + 1)):
            base, stored, back = program.registers(random, 3)
            distance, address = apart(random, place)
            program.set(stored, random.choice(EDGES + [0x89ABCDEF, 0x01234567]))
            program.add(f"la x{base}, {address}", f"{name} x{random.choice([stored, stored, 0])}, {distance}(x{base})")
            program.add(f"la x{base}, scratch", f"lw x{back}, {place // 4 * 4}(x{base})")
            program.keep(back, f"{name} at {place}")
    return program


# ---- jumps and branches


def branches(random, pointer):
    """Every branch on pairs of edges, over code and back to code; one bit says whether it was taken."""
    program = Assembly(pointer)
    numbers = [0, 1, 2, 0x7FFFFFFF, 0x80000000, 0x80000001, 0xFFFFFFFF]
    for name in BRANCHES:
        for a in numbers:
            for b in numbers:
                left, right, count = program.registers(random, 3)
                over, taken, past, done = [program.label() for _ in range(4)]
                program.set(left, a)
                program.set(right, b)
                program.set(count, 0)
                program.add(f"{name} x{left}, x{right}, {over}", f"addi x{count}, x{count}, 1", f"{over}:", f"j {past}")
                program.add(f"{taken}:", f"addi x{count}, x{count}, 2", f"j {done}")
                program.add(f"{past}:", f"{name} x{left}, x{right}, {taken}", f"addi x{count}, x{count}, 4", f"{done}:")
                program.keep(count, f"{name} of {a:#x} and {b:#x}")
    return program


def jumps(random, pointer):
    """JAL both ways; JALR to sums whose bit 0 is cleared, also with one register for both ends."""
    program = Assembly(pointer)
    for _ in range(4):
        (link,) = program.registers(random, 1)
        over, back, past, done = [program.label() for _ in range(4)]
        program.add(f"jal x{link}, {over}", f"li x{link}, 77", f"{over}:")
        program.keep(link, "JAL over code")
        program.add(f"j {past}", f"{back}:", f"j {done}", f"{past}:", f"jal x{link}, {back}", f"li x{link}, 77", f"{done}:")
        program.keep(link, "JAL back")
    for distance in [0, 1, -2, -1, 2047, -2047, -2048]:
        for odd in [0, 1]:
            base, other = program.registers(random, 2)
            for link in [base, other, 0]:
                there = program.label()
                program.add(f"la x{base}, {there}{odd - distance:+d}")
                program.add(f"jalr x{link}, {distance}(x{base})", f"li x{base}, 77", f"li x{other}, 77", f"{there}:")
                program.keep(link, f"JALR by {distance}, odd {odd}")
                program.keep(base, f"the base of JALR by {distance}, odd {odd}")
    return program


# ---- random code without jumps


def random_step(random, registers, base):
    """One instruction with random fields; loads and stores go to the scratch area around `base`."""
    name = random.choice(OPERATIONS * 2 + IMMEDIATE_OPERATIONS + SHIFTS + list(LOADS) + list(STORES) + ["lui", "auipc"])
    to, left, right = [random.choice(registers + [0]) for _ in range(3)]
    if name in OPERATIONS:
        return f"{name} x{to}, x{left}, x{right}"
    if name in LOADS or name in STORES:
        width = (LOADS | STORES)[name]
        distance = random.randrange(-SCRATCH_BYTES // 2, SCRATCH_BYTES // 2, width)
        return f"{name} x{to}, {distance}(x{base})"
    fields = random_fields(random, name)
    if name in ["lui", "auipc"]:
        return f"{name} x{to}, {fields['imm']:#x}"
    return f"{name} x{to}, x{left}, {fields['imm']}"


def random_code(random, pointer, steps):
    """Random instructions on all registers, which are the results."""
    program = Assembly(pointer)
    base, *registers = program.registers(random, 30)
    program.add(f"la x{base}, scratch+{SCRATCH_BYTES // 2}")
    for register in registers:
        program.set(register, random.choice([random.choice(EDGES), random.randrange(2**32)]))
    for step in range(steps):
        program.add(random_step(random, registers, base))
        if step % 25 == 24:
            program.keep(random.choice(registers), f"a register after {step + 1} random instructions")
    for register in registers:
        program.keep(register, f"x{register} at the end")
    return program


EVERY_INSTRUCTION = [operations, shared_registers, immediates, upper_immediates, loads, stores, branches, jumps]
