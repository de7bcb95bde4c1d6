"""What look.py and tint.py have to know of a scan: whether it is LAS, and what its header says."""

import struct
from dataclasses import dataclass

# Of each point format: the bytes that a record has at least, and where its red, green and blue stand.
RECORDS = {0: (20, None), 1: (28, None), 2: (26, 20), 3: (34, 28), 6: (30, None), 7: (36, 30), 8: (38, 30)}
HEADER_SIZES = {2: 227, 3: 235, 4: 375}


class NotRead(Exception):
    """Why a file is not read, in one line."""


@dataclass(frozen=True)
class Header:
    """What the header of a LAS file 1.minor says of its points."""

    minor: int
    format: int
    start: int  # of the points
    length: int  # of a record
    count: int
    scales: tuple
    offsets: tuple

    @property
    def colours_at(self):
        """Where the colours stand in a record, or None where it has none."""
        return RECORDS[self.format][1]


def is_las(name):
    """Whether the program reads a file of this name as LAS."""
    return name.lower().endswith((".las", ".laz"))


def header_of(name, data):
    """The header in the first bytes of the file of this name."""
    if data[:4] != b"LASF":
        raise NotRead(f"{name}: not a LAS file")
    minor = data[25] if len(data) > 25 else None
    if minor not in HEADER_SIZES or len(data) < HEADER_SIZES[minor]:
        raise NotRead(f"{name}: not a whole LAS file of version 1.2, 1.3 or 1.4")
    start, _, format_, length, count = struct.unpack_from("<IIBHI", data, 96)
    if format_ >= 128:
        raise NotRead(f"{name}: compressed points: decompress the file first")
    if format_ not in RECORDS or length < RECORDS[format_][0]:
        raise NotRead(f"{name}: points of another format than 0, 1, 2, 3, 6, 7 and 8")
    if minor == 4:
        (count,) = struct.unpack_from("<Q", data, 247)
    frame = struct.unpack_from("<6d", data, 131)
    return Header(minor, format_, start, length, count, frame[:3], frame[3:])


def read_header(name):
    with open(name, "rb") as file:
        return header_of(name, file.read(max(HEADER_SIZES.values())))


def fields_of(line):
    """The fields of a line of text, or None where it is passed over."""
    fields = line.replace(b",", b" ").replace(b"\t", b" ").split()
    return None if not fields or fields[0].startswith((b"#", b"//")) else fields
