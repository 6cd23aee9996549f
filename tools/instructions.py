"""The instruction table of RV32IM (RISC-V unprivileged specification, chapters RV32I and M): the
word of an instruction, and its text as Rust's Debug prints the instruction of the crate rv_isa."""

from typing import NamedTuple

EDGES = [0, 1, 2, 3, 31, 32, 0x7FF, 0x800, 0xFFFF, 0x10000, 0x7FFFFFFF, 0x80000000, 0x80000001, 0xFFFF8000, 0xFFFFFFFE, 0xFFFFFFFF]


class Row(NamedTuple):
    form: str
    opcode: int
    funct3: int
    funct7: int


TABLE = {}


def add_rows(form, opcode, names, functs=(0,), funct7=0):
    for name, funct3 in zip(names.split(), functs):
        TABLE[name] = Row(form, opcode, funct3, funct7)


add_rows("U", 0x37, "lui")
add_rows("U", 0x17, "auipc")
add_rows("J", 0x6F, "jal")
add_rows("I", 0x67, "jalr")
add_rows("B", 0x63, "beq bne blt bge bltu bgeu", [0, 1, 4, 5, 6, 7])
add_rows("I", 0x03, "lb lh lw lbu lhu", [0, 1, 2, 4, 5])
add_rows("S", 0x23, "sb sh sw", [0, 1, 2])
add_rows("I", 0x13, "addi slti sltiu xori ori andi", [0, 2, 3, 4, 6, 7])
add_rows("shift", 0x13, "slli srli", [1, 5])
add_rows("shift", 0x13, "srai", [5], 0x20)
add_rows("R", 0x33, "add sll slt sltu xor srl or and", range(8))
add_rows("R", 0x33, "sub sra", [0, 5], 0x20)
add_rows("R", 0x33, "mul mulh mulhsu mulhu div divu rem remu", range(8), 1)
add_rows("I", 0x0F, "fence")
add_rows("fixed", 0x00000073, "ecall")
add_rows("fixed", 0x00100073, "ebreak")

FIELDS = {
    "R": ["rd", "rs1", "rs2"],
    "I": ["rd", "rs1", "imm"],
    "shift": ["rd", "rs1", "imm"],
    "S": ["rs1", "rs2", "imm"],
    "B": ["rs1", "rs2", "imm"],
    "U": ["rd", "imm"],
    "J": ["rd", "imm"],
    "fixed": [],
}

# of the immediate: the least, the greatest, and what it is a multiple of
RANGES = {
    "I": (-2048, 2047, 1),
    "shift": (0, 31, 1),
    "S": (-2048, 2047, 1),
    "B": (-4096, 4094, 2),
    "U": (0, 0xFFFFF, 1),
    "J": (-0x100000, 0xFFFFE, 2),
}


def names_of(form):
    return [name for name, row in TABLE.items() if row.form == form]


def bits(number, high, low):
    """The bits of a number from `high` down to `low`, as a number."""
    return (number >> low) % 2 ** (high - low + 1)


def word(name, rd=0, rs1=0, rs2=0, imm=0):
    """The word of an instruction."""
    row = TABLE[name]
    if row.form == "fixed":
        return row.opcode
    upper = rs1 << 15 | row.funct3 << 12
    lower = rd << 7 | row.opcode
    if row.form == "R":
        return row.funct7 << 25 | rs2 << 20 | upper | lower
    if row.form == "I":
        return bits(imm, 11, 0) << 20 | upper | lower
    if row.form == "shift":
        return row.funct7 << 25 | imm << 20 | upper | lower
    if row.form == "S":
        return bits(imm, 11, 5) << 25 | rs2 << 20 | upper | bits(imm, 4, 0) << 7 | row.opcode
    if row.form == "B":
        high = bits(imm, 12, 12) << 31 | bits(imm, 10, 5) << 25
        return high | rs2 << 20 | upper | bits(imm, 4, 1) << 8 | bits(imm, 11, 11) << 7 | row.opcode
    if row.form == "U":
        return imm << 12 | lower
    scattered = bits(imm, 20, 20) << 31 | bits(imm, 10, 1) << 21 | bits(imm, 11, 11) << 20 | bits(imm, 19, 12) << 12
    return scattered | lower


def debug_text(name, fields):
    """The instruction as Rust's Debug prints it."""
    names = FIELDS[TABLE[name].form]
    if not names:
        return name.capitalize()
    return name.capitalize() + " { " + ", ".join(f"{n}: {fields[n]}" for n in names) + " }"


def random_immediate(random, form):
    least, greatest, step = RANGES[form]
    edges = [least, greatest // step * step, 0, step, least + step, max(least, -step)]
    return random.choice(edges) if random.random() < 0.3 else random.randrange(least, greatest + 1, step)


def random_fields(random, name):
    """Fields of the instruction, in their ranges."""
    form = TABLE[name].form
    return {n: random_immediate(random, form) if n == "imm" else random.randrange(32) for n in FIELDS[form]}
