"""ELF32 files by their fields (System V ABI, ELF Header and Program Header), and which field of a
file the machine's reader has to refuse."""

from typing import NamedTuple

TEXT = 0x10000
EXECUTE, WRITE, READ = 1, 2, 4
FILE_HEADER, PROGRAM_HEADER = 52, 32
GREATEST_TOTAL = 1280 << 20

# of each field of the file header: where it stands and its length
FILE_FIELDS = {
    "magic": (0, 4),
    "class": (4, 1),
    "data": (5, 1),
    "identity version": (6, 1),
    "padding": (7, 4),
    "kind": (16, 2),
    "machine": (18, 2),
    "version": (20, 4),
    "entry": (24, 4),
    "program headers": (28, 4),
    "section headers": (32, 4),
    "flags": (36, 4),
    "header length": (40, 2),
    "program header size": (42, 2),
    "program header count": (44, 2),
    "section header size": (46, 2),
    "section header count": (48, 2),
    "section names": (50, 2),
}
PROGRAM_FIELDS = {
    "kind": (0, 4),
    "offset": (4, 4),
    "address": (8, 4),
    "physical address": (12, 4),
    "file size": (16, 4),
    "memory size": (20, 4),
    "flags": (24, 4),
    "alignment": (28, 4),
}

# Six instructions, the last of which loads from an odd address; written out byte by byte.
EXAMPLE = bytes.fromhex(
    "7f454c46010101000000000000000000 0200f300 01000000 00000100 34000000 00000000 00000000"
    "34002000 01000000 00000000"
    "01000000 54000000 00000100 00000100 18000000 18000000 05000000 04000000"
    "93027000 33c30202 b7030080 33ee6302 b7050100 03a52500"
)


def number_at(data, at, length):
    return int.from_bytes(data[at : at + length], "little")


def with_number(data, at, length, number):
    """The bytes with a number in place of what stood there."""
    return data[:at] + number.to_bytes(length, "little") + data[at + length :]


def words_of(words):
    return b"".join(word.to_bytes(4, "little") for word in words)


class Segment(NamedTuple):
    address: int
    content: bytes
    size: int
    flags: int
    kind: int = 1


def program_header(segment, offset):
    numbers = [segment.kind, offset, segment.address, segment.address, len(segment.content), segment.size, segment.flags, 4]
    return words_of(numbers)


def elf_file(segments, entry=TEXT):
    """A file of these segments: the headers, and then what each holds."""
    count = len(segments)
    head = bytes.fromhex("7f454c46010101") + bytes(9) + bytes.fromhex("0200f30001000000") + words_of([entry, FILE_HEADER, 0, 0])
    head += b"".join(n.to_bytes(2, "little") for n in [FILE_HEADER, PROGRAM_HEADER, count, 0, 0, 0])
    table, contents = b"", b""
    for segment in segments:
        table += program_header(segment, FILE_HEADER + PROGRAM_HEADER * count + len(contents))
        contents += segment.content
    return head + table + contents


def code_file(words, *others):
    """A file whose first segment holds the words as code at the entry; others stand after it."""
    return elf_file([Segment(TEXT, words_of(words), 4 * len(words), READ | EXECUTE), *others])


# ---- what the reader refuses


class Header(NamedTuple):
    """What the reader takes of a program header."""

    kind: int
    offset: int
    address: int
    file_size: int
    memory_size: int


def header_at(data, index):
    """The program header of that number."""
    at = number_at(data, 28, 4) + PROGRAM_HEADER * index
    return Header(*[number_at(data, at + place, 4) for place in [0, 4, 8, 16, 20]])


def loadable_headers(data):
    """The program headers of kind 1, of a file that has its whole table."""
    headers = [header_at(data, i) for i in range(number_at(data, 44, 2))]
    return [header for header in headers if header.kind == 1]


def refused_file_header(data):
    """The first refused field of the file header with the number found there, or None."""
    if len(data) < FILE_HEADER:
        return "Length", len(data)
    fixed = [
        ("Magic", 0, 4, 0x464C457F),
        ("Class", 4, 1, 1),
        ("Data", 5, 1, 1),
        ("Ident", 6, 1, 1),
        ("Kind", 16, 2, 2),
        ("Machine", 18, 2, 243),
        ("Version", 20, 4, 1),
    ]
    for field, at, length, wanted in fixed:
        if number_at(data, at, length) != wanted:
            return field, number_at(data, at, length)
    offset, size, count = number_at(data, 28, 4), number_at(data, 42, 2), number_at(data, 44, 2)
    if count != 0 and size != PROGRAM_HEADER:
        return "HeaderSize", size
    if offset + PROGRAM_HEADER * count > len(data):
        return "Headers", offset
    return None


def have_common_address(a, b):
    return max(a.address, b.address) < min(a.address + a.memory_size, b.address + b.memory_size)


def refused_segments(data, headers):
    """The first refused field of the loadable headers, one header after the other, or None."""
    if not 1 <= len(headers) <= 16:
        return "Loads", len(headers)
    for i, header in enumerate(headers):
        if header.offset + header.file_size > len(data):
            return "FileRange", header.offset
        if header.memory_size < header.file_size:
            return "Sizes", header.memory_size
        if header.address + header.memory_size > 2**32:
            return "Address", header.address
        if any(have_common_address(header, earlier) for earlier in headers[:i]):
            return "Overlap", header.address
    total = sum(header.memory_size for header in headers)
    return ("Total", total) if total > GREATEST_TOTAL else None


def refused_field(data):
    """The first refused field of a file with the number found there, or None where it is loaded."""
    refused = refused_file_header(data) or refused_segments(data, loadable_headers(data))
    if refused is None and number_at(data, 24, 4) % 4 != 0:
        refused = "Entry", number_at(data, 24, 4)
    return refused
