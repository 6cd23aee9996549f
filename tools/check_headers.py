"""Compares what `layc run` answers on damaged ELF files with the list of refused fields in
elf_files: the first refused field and its number, or a run that ends in some other way."""

import itertools
import os
import re

from checking import ELF_STATUS, check, run
from elf_files import (
    EXAMPLE,
    EXECUTE,
    FILE_FIELDS,
    FILE_HEADER,
    GREATEST_TOTAL,
    PROGRAM_FIELDS,
    PROGRAM_HEADER,
    READ,
    TEXT,
    WRITE,
    Segment,
    elf_file,
    header_at,
    number_at,
    refused_field,
    with_number,
    words_of,
)
from instructions import word

SEVERAL_MUTATIONS = 100
RANDOM_BYTES = 40
STEPS = "1000"

# An answer that is no refused field: the program's own status, a trap, a break, the limit of steps,
# or memory that is not there.
OTHER_ENDS = re.compile(rb"(layc: (trap [A-Z][a-z]+ at 0x[0-9a-f]{8}|out of room at 0x[0-9a-f]{8}|step limit 1000 reached|out of memory)\n)?")


# ---- files


def several_headers():
    """A file with five program headers: code, data, a note that is not loaded, and two without bytes."""
    code = words_of([word("addi", rd=17, imm=93), word("ecall")])
    return elf_file(
        [
            Segment(TEXT, code, 8, READ | EXECUTE),
            Segment(0x20000, b"data of the program", 32, READ | WRITE),
            Segment(0, b"note", 4, READ, kind=4),
            Segment(0x30000, b"", 0x1000, READ | WRITE),
            Segment(0xFFFFF000, b"", 0x1000, READ | WRITE),
        ]
    )


def many_headers(count, size=16):
    """A file with this number of segments without bytes."""
    return elf_file([Segment(TEXT + 0x1000 * i, b"", size, READ | EXECUTE) for i in range(count)])


# ---- places where a file is damaged


def file_places():
    return [(f"{field} of the file", at, length) for field, (at, length) in FILE_FIELDS.items()]


def program_places(data):
    count = number_at(data, 44, 2)
    return [
        (f"{field} of header {i}", FILE_HEADER + PROGRAM_HEADER * i + at, length)
        for i in range(count)
        for field, (at, length) in PROGRAM_FIELDS.items()
    ]


def turning_points(data, at):
    """Numbers near which some test of the field at this place turns."""
    if at == FILE_FIELDS["program headers"][0]:
        return [len(data) - PROGRAM_HEADER * number_at(data, 44, 2)]
    if at == FILE_FIELDS["program header count"][0]:
        return [(len(data) - FILE_HEADER) // PROGRAM_HEADER, 16]
    if at < FILE_HEADER:
        return []
    index, part = divmod(at - FILE_HEADER, PROGRAM_HEADER)
    headers = [header_at(data, i) for i in range(number_at(data, 44, 2))]
    own, others = headers[index], headers[:index] + headers[index + 1 :]
    if part == PROGRAM_FIELDS["offset"][0]:
        return [len(data) - own.file_size]
    if part == PROGRAM_FIELDS["file size"][0]:
        return [len(data) - own.offset, own.memory_size]
    if part == PROGRAM_FIELDS["memory size"][0]:
        return [own.file_size, 2**32 - own.address] + [other.address - own.address for other in others]
    if part == PROGRAM_FIELDS["address"][0]:
        meeting = [n for other in others for n in [other.address - own.memory_size, other.address + other.memory_size]]
        return [2**32 - own.memory_size] + meeting
    return []


def edges(data, at, length):
    """Numbers to put in place of a field."""
    own = number_at(data, at, length)
    points = [0, own] + turning_points(data, at)
    numbers = {n + d for n in points for d in [-1, 0, 1]} | {own ^ 2, 2 ** (8 * length - 1), 256**length - 1}
    return sorted(n for n in numbers if 0 <= n < 256**length and not is_large(at, n))


def is_large(at, number):
    """Whether the number is a memory size that is taken and makes the machine slow to start; such
    sizes have files of their own."""
    is_memory_size = at >= FILE_HEADER and (at - FILE_HEADER) % PROGRAM_HEADER == PROGRAM_FIELDS["memory size"][0]
    return is_memory_size and 2**24 < number <= GREATEST_TOTAL


# ---- checks


def check_file(layc, path, data, what):
    """The answer of `layc run` on these bytes is that of `refused_field`."""
    with open(path, "wb") as f:
        f.write(data)
    done = run([layc, "run", "--steps", STEPS, path], seconds=60)
    refused = refused_field(data)
    if refused:
        wanted = f"layc: bad ELF: {refused[0]} {refused[1]}\n".encode()
        right = (done.returncode, done.stdout, done.stderr) == (ELF_STATUS, b"", wanted)
    else:
        wanted = b"no refused field"
        right = done.returncode is not None and done.returncode >= 0 and OTHER_ENDS.fullmatch(done.stderr)
    check(right, f"{what}: layc run gives {done.returncode} {done.stderr!r}, wanted {wanted!r}; the file is {data[:340].hex()}")


def check_each_field(layc, path, data, name):
    for what, at, length in file_places() + program_places(data):
        for number in edges(data, at, length):
            check_file(layc, path, with_number(data, at, length, number), f"{name}, {what} {number}")


def refusals(data):
    """Damages, each of which by itself has the file refused, as place, length and number; at least
    one for each field of the table, and for each header in which it can stand."""
    file_numbers = {
        "magic": [0x464C457E],
        "class": [2],
        "data": [2],
        "identity version": [0],
        "kind": [3],
        "machine": [62],
        "version": [2],
        "entry": [TEXT + 2],
        "program headers": [len(data), 2**32 - 1],
        "program header size": [31],
        "program header count": [0, 17],
    }
    found = [(*FILE_FIELDS[field], number) for field, numbers in file_numbers.items() for number in numbers]
    for i in range(number_at(data, 44, 2)):
        header = header_at(data, i)
        numbers = {"offset": [len(data) + 1], "address": [2**32 - 1], "memory size": [2**31]}
        if i > 0:
            numbers["address"].append(TEXT)
        if header.file_size > 0:
            numbers["memory size"].append(header.file_size - 1)
        for field, wanted in numbers.items():
            at, length = PROGRAM_FIELDS[field]
            found += [(FILE_HEADER + PROGRAM_HEADER * i + at, length, number) for number in wanted]
    return found


def check_pairs(layc, path, data, name):
    """Of two damages the one that stands first in the table is answered."""
    for one, other in itertools.combinations(refusals(data), 2):
        damaged = with_number(with_number(data, *one), *other)
        check_file(layc, path, damaged, f"{name}, {one[2]} at byte {one[0]} and {other[2]} at byte {other[0]}")


def check_several_fields(layc, path, data, random, name):
    places = file_places() + program_places(data) * 3
    for _ in range(SEVERAL_MUTATIONS):
        damaged, changes = data, []
        for what, at, length in random.sample(places, random.choice([2, 2, 3])):
            number = random.choice(edges(data, at, length))
            damaged = with_number(damaged, at, length, number)
            changes.append(f"{what} {number}")
        check_file(layc, path, damaged[: random.choice([None] * 9 + [len(data) - 1])], f"{name}, {', '.join(changes)}")


def check_random_bytes(layc, path, data, random, name):
    """Bytes other than those of a memory size, which could be a large one."""
    head = FILE_HEADER + PROGRAM_HEADER * number_at(data, 44, 2)
    free = [at for at in range(head) if not (at >= FILE_HEADER and 20 <= (at - FILE_HEADER) % PROGRAM_HEADER < 24)]
    for _ in range(RANDOM_BYTES):
        at, byte = random.choice(free), random.randrange(256)
        check_file(layc, path, with_number(data, at, 1, byte), f"{name}, byte {at} is {byte}")


def check_lengths(layc, path, data, name):
    for length in range(len(data)):
        check_file(layc, path, data[:length], f"the first {length} bytes of {name}")
    check_file(layc, path, data + b"more", f"{name} with more bytes after it")


def check_numbers_of_segments(layc, path):
    for count in [0, 1, 2, 15, 16, 17, 40]:
        check_file(layc, path, many_headers(count), f"{count} loadable headers")
    notes = elf_file([Segment(0, b"", 0, READ, kind=4)] * 20 + [Segment(TEXT, b"\x73\0\0\0", 4, READ | EXECUTE)])
    check_file(layc, path, notes, "20 headers that are not loadable")


def check_neighbours(layc, path):
    """Segments that touch, meet, hold one another, or have no address."""
    cases = [
        (16, TEXT + 16, 16),
        (17, TEXT + 16, 16),
        (16, TEXT + 15, 1),
        (16, TEXT - 16, 16),
        (16, TEXT - 16, 17),
        (16, TEXT, 16),
        (16, TEXT - 0x1000, 0x2000),
        (0, TEXT, 16),
        (16, TEXT, 0),
        (16, TEXT + 8, 0),
    ]
    for size, address, other in cases:
        data = elf_file([Segment(TEXT, b"", size, READ | EXECUTE), Segment(address, b"", other, READ | WRITE)])
        check_file(layc, path, data, f"segments of {size} bytes at {TEXT:#x} and of {other} bytes at {address:#x}")


def check_totals(layc, path):
    """The greatest sum of memory sizes, in one segment and in several, and one byte more."""
    for sizes in [[GREATEST_TOTAL], [GREATEST_TOTAL + 1], [16, GREATEST_TOTAL - 16], [16, GREATEST_TOTAL - 15], [2**30, 2**30, 2**30]]:
        places = [TEXT, TEXT + sizes[0], TEXT + sum(sizes[:2])]
        data = elf_file([Segment(at, b"", size, READ | EXECUTE) for at, size in zip(places, sizes)])
        check_file(layc, path, data, f"memory sizes {sizes}")


def check_headers(layc, folder, random):
    path = os.path.join(folder, "damaged.elf")
    for name, data in [("the example", EXAMPLE), ("the file with several headers", several_headers())]:
        check_file(layc, path, data, name)
        check_each_field(layc, path, data, name)
        check_pairs(layc, path, data, name)
        check_several_fields(layc, path, data, random, name)
        check_random_bytes(layc, path, data, random, name)
    check_lengths(layc, path, EXAMPLE, "the example")
    check_numbers_of_segments(layc, path)
    check_neighbours(layc, path)
    check_totals(layc, path)
