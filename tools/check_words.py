"""Compares `decode` and `encode` of the crate rv_isa with the instruction table of this folder and
with `objdump`.

The program rv_words answers each word with `none`, or with the word of `encode(decode(w))` and the
instruction as Rust's Debug prints it.
"""

import re
import struct
import tempfile

from checking import OBJDUMP, built, check, have, run
from instructions import TABLE, debug_text, random_fields, word

FIELDS_EACH = 150
RANDOM_WORDS = 4000
# objdump may read a word as the first part of a longer instruction, so each stands alone: after it
# comes ADDI x0,x0,0 until the longest instruction that objdump knows has ended.
SLOT = 32
PADDING = struct.pack("<I", 0x13) * (SLOT // 4 - 1)

SIGNED = r"(-?\d+)"
HEXADECIMAL = r"(0x[0-9a-f]+)"
REGISTER = r"x(\d+)"


# ---- words


def known_words(random):
    """Words of every instruction with random fields, and the texts of their instructions."""
    pairs = []
    for name in TABLE:
        for _ in range(FIELDS_EACH if TABLE[name].form != "fixed" else 1):
            fields = random_fields(random, name)
            pairs.append((word(name, **fields), debug_text(name, fields)))
    return pairs


def random_words(random, known):
    """Words of which many are no instruction: any at all, those with a known opcode, and those that
    differ from an instruction in one or two bits."""
    opcodes = sorted({w % 128 for w in known})
    words = [0, 0xFFFFFFFF, 0x00200073, 0x10500073, 0x30200073, 0x0000100F, 0x8330000F, 0x0100000F]
    for _ in range(RANDOM_WORDS):
        words.append(random.randrange(2**32))
        words.append(random.randrange(2**25) << 7 | random.choice(opcodes))
        words.append(random.choice(known) ^ 1 << random.randrange(32))
        words.append(random.choice(known) ^ 1 << random.randrange(32) ^ 1 << random.randrange(32))
    return words


# ---- the answers of rv_words and of objdump


def answers(program, words):
    """What rv_words prints for each word."""
    text = "".join(f"{w:08x}\n" for w in words).encode()
    done = run([program], input=text, seconds=60)
    lines = done.stdout.decode().splitlines()
    right = done.returncode == 0 and len(lines) == len(words)
    check(right, f"rv_words: status {done.returncode}, {len(lines)} lines for {len(words)} words, {done.stderr!r}")
    return lines if right else []


def disassembled(words):
    """What objdump prints for each word, which stands alone in a slot."""
    with tempfile.NamedTemporaryFile() as f:
        f.write(b"".join(struct.pack("<I", w) + PADDING for w in words))
        f.flush()
        shown = run([OBJDUMP, "-D", "-b", "binary", "-m", "riscv:rv32", "-M", "no-aliases,numeric", f.name]).stdout.decode()
    lines = re.findall(r"^\s*([0-9a-f]+):\t[0-9a-f ]+\t(.*)$", shown, re.M)
    at = {int(address, 16): re.sub(r"\s*[<#].*$", "", line.replace("\t", " ")).strip() for address, line in lines}
    return [at.get(SLOT * i, "") for i in range(len(words))]


# ---- what objdump's line means as one of the table's instructions


def pattern(form, name):
    """The operands of a form as objdump prints them, and the fields that they are."""
    if form == "R":
        return f"{REGISTER},{REGISTER},{REGISTER}", ["rd", "rs1", "rs2"]
    if form == "S":
        return rf"{REGISTER},{SIGNED}\({REGISTER}\)", ["rs2", "imm", "rs1"]
    if form == "B":
        return f"{REGISTER},{REGISTER},{HEXADECIMAL}", ["rs1", "rs2", "target"]
    if form == "U":
        return f"{REGISTER},{HEXADECIMAL}", ["rd", "imm"]
    if form == "J":
        return f"{REGISTER},{HEXADECIMAL}", ["rd", "target"]
    if form == "shift":
        return f"{REGISTER},{REGISTER},{HEXADECIMAL}", ["rd", "rs1", "imm"]
    if form == "fixed":
        return "", []
    if name == "jalr" or TABLE[name].opcode == TABLE["lw"].opcode:
        return rf"{REGISTER},{SIGNED}\({REGISTER}\)", ["rd", "imm", "rs1"]
    return f"{REGISTER},{REGISTER},{SIGNED}", ["rd", "rs1", "imm"]


def distance(target, address):
    """How far a target is from an address, as a signed number of 32 bits."""
    return (target - address + 2**31) % 2**32 - 2**31


def is_fence(w):
    """FENCE is known by its opcode and funct3 alone; objdump names some of them otherwise, and some not at all."""
    return w % 128 == 0x0F and (w >> 12) % 8 == 0


def meant(w, line, address):
    """The text of the instruction that objdump's line names, or `none`."""
    if is_fence(w):
        imm = (w >> 20) - (4096 if w >> 31 else 0)
        return debug_text("fence", dict(rd=(w >> 7) % 32, rs1=(w >> 15) % 32, imm=imm))
    name, _, operands = line.partition(" ")
    if name not in TABLE or name == "fence":
        return "none"
    expression, fields = pattern(TABLE[name].form, name)
    found = re.fullmatch(expression, operands)
    if not found:
        return f"objdump's line is not understood: {line}"
    values = {field: int(text, 0) for field, text in zip(fields, found.groups())}
    if "target" in values:
        values["imm"] = distance(values.pop("target"), address)
    # objdump takes shifts by 32 and more, which 32-bit machines do not have
    if TABLE[name].form == "shift" and values["imm"] > 31:
        return "none"
    return debug_text(name, values)


# ---- the comparison


def answer_for(w, text):
    return text if text == "none" else f"{w:08x} {text}"


def check_known(program, known):
    words = [w for w, _ in known]
    for (w, text), got in zip(known, answers(program, words)):
        check(got == answer_for(w, text), f"the word {w:08x}: rv_words prints {got!r}, the table has {text!r}")


def check_disassembled(program, words):
    for i, (w, got, line) in enumerate(zip(words, answers(program, words), disassembled(words))):
        wanted = answer_for(w, meant(w, line, SLOT * i))
        check(got == wanted, f"the word {w:08x}: rv_words prints {got!r}, {OBJDUMP} {line!r}, so wanted {wanted!r}")


def check_words(random):
    program = built("rv_words")
    check(program is not None, "the program rv_words is not built")
    if program is None:
        return
    known = known_words(random)
    check_known(program, known)
    if have(OBJDUMP):
        words = [w for w, _ in known]
        check_disassembled(program, words + random_words(random, words))
