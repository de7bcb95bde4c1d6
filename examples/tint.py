#!/usr/bin/env python3
"""Makes a copy of a scan with colours by height or by intensity: tint.py IN OUT --by height|intensity

A LAS file stays LAS and a text stays text. A LAS file keeps its scales and offsets, and each record all
that it has: a colour that is there is replaced, and a format without colours becomes the one that has them.
A line of text keeps its coordinates and its intensity. What the lowest hundredth of all points has is the
darkest colour, what the highest has is the brightest, and between them there are 256.
"""

import argparse
import array
import struct
import sys

from scans import RECORDS, NotRead, fields_of, header_of, is_las

WITH_COLOURS = {0: 2, 1: 3, 6: 7}  # the format that has the fields of one without colours, and colours behind them
COLUMNS = {"height": (8, "i"), "intensity": (12, "H")}  # of a LAS record: where the number stands, and its kind
STOPS = {
    "height": ((0, (40, 60, 140)), (64, (50, 150, 120)), (128, (120, 180, 70)), (192, (215, 190, 90)), (255, (245, 235, 220))),
    "intensity": ((0, (40, 40, 40)), (255, (255, 255, 255))),
}
SAMPLE = 100_000  # values from which the first and the last hundredth are taken


def colours(by):
    """The red, green and blue of each of the 256 levels, as three rows of bytes."""
    rows = [bytearray(256) for _ in range(3)]
    for (low, dark), (high, bright) in zip(STOPS[by], STOPS[by][1:]):
        for level in range(low, high + 1):
            for row, a, b in zip(rows, dark, bright):
                row[level] = round(a + (b - a) * (level - low) / (high - low))
    return [bytes(row) for row in rows]


def edges(values):
    """The 1st and the 99th of a hundred parts."""
    some = sorted(values[:: max(1, len(values) // SAMPLE)])
    return (some[len(some) // 100], some[-1 - len(some) // 100]) if some else (0, 0)


def levels(values, low, high):
    """The level of each value, 0 at or below low and 255 at or above high."""
    span = high - low or 1
    return bytes(min(255, max(0, int((it - low) * 255 / span))) for it in values)


# ---- LAS


def read_las(name):
    with open(name, "rb") as file:
        data = file.read()
    header = header_of(name, data)
    if header.start + header.count * header.length > len(data):
        raise NotRead(f"{name}: cut off in its points")
    return header, data


def las_values(name, by):
    """The height or intensity of each point, as it is stored."""
    header, data = read_las(name)
    at, kind = COLUMNS[by]
    values = array.array(kind)
    raw = bytearray(header.count * values.itemsize)
    end = header.start + header.count * header.length
    for byte in range(values.itemsize):
        raw[byte :: values.itemsize] = data[header.start + at + byte : end : header.length]
    values.frombytes(raw)
    if sys.byteorder == "big":
        values.byteswap()
    return values


def las_head(header, data, wide, end):
    """All before the points, for records of this length."""
    head = bytearray(data[: header.start])
    struct.pack_into("<BH", head, 104, WITH_COLOURS.get(header.format, header.format), wide)
    if header.minor >= 3:  # what stands behind the points has moved
        place = {3: 227, 4: 235}[header.minor]
        (behind,) = struct.unpack_from("<Q", head, place)
        if behind >= end:
            struct.pack_into("<Q", head, place, behind + header.count * (wide - header.length))
    return head


def tint_las(name, out, by, low, high):
    header, data = read_las(name)
    fields, room = RECORDS[header.format][0], 0 if header.colours_at else 6
    wide, end = header.length + room, header.start + header.count * header.length
    records = bytearray(header.count * wide)
    for byte in range(header.length):
        records[byte + room * (byte >= fields) :: wide] = data[header.start + byte : end : header.length]
    level = levels(las_values(name, by), low, high)
    for channel, row in enumerate(colours(by)):
        at = (header.colours_at or fields) + 2 * channel
        records[at::wide] = records[at + 1 :: wide] = level.translate(row)  # a word is 257 times the byte
    with open(out, "wb") as file:
        file.write(las_head(header, data, wide, end))
        file.write(records)
        file.write(data[end:])


# ---- text


def text_points(name):
    """Each line of a text, with the fields of its point, or None where it has none."""
    with open(name, "rb") as file:
        for number, line in enumerate(file, 1):
            fields = fields_of(line)
            if fields and len(fields) not in (3, 4, 6, 7):
                raise NotRead(f"{name}: line {number}: {len(fields)} fields")
            yield number, line, fields


def text_value(name, number, fields, by):
    if by == "intensity" and len(fields) not in (4, 7):
        raise NotRead(f"{name}: line {number} has no intensity: colour it by height")
    try:
        return float(fields[2 if by == "height" else 3])
    except ValueError:
        raise NotRead(f"{name}: line {number}: not a number") from None


def text_values(name, by):
    return array.array("d", (text_value(name, number, fields, by) for number, _, fields in text_points(name) if fields))


def tint_text(name, out, by, low, high):
    shades = [b"%d %d %d" % it for it in zip(*colours(by))]
    with open(out, "wb") as file:
        for number, line, fields in text_points(name):
            if fields:
                (level,) = levels([text_value(name, number, fields, by)], low, high)
                line = b" ".join(fields[: 3 + (len(fields) in (4, 7))] + [shades[level]]) + b"\n"
            file.write(line)


# ---- both


def values_of(name, by):
    return (las_values if is_las(name) else text_values)(name, by)


def tint(name, out, by, low, high):
    """Writes a copy with colours by the place of each value between low and high."""
    (tint_las if is_las(name) else tint_text)(name, out, by, low, high)


def main(words):
    asked = argparse.ArgumentParser(description="Makes a copy of a scan with colours by height or by intensity.")
    asked.add_argument("scan", help="a LAS file or a text")
    asked.add_argument("out", help="the copy, with an ending that means the same")
    asked.add_argument("--by", choices=("height", "intensity"), required=True, help="what the colours tell")
    given = asked.parse_args(words)
    if is_las(given.scan) != is_las(given.out):
        sys.exit(f"{given.out}: the copy of a LAS file is a LAS file, and that of a text a text")
    try:
        low, high = edges(values_of(given.scan, given.by))
        if low == high:
            print(f"{given.scan}: nearly all points have the same {given.by}, {low}", file=sys.stderr)
        tint(given.scan, given.out, given.by, low, high)
    except NotRead as why:
        sys.exit(str(why))
    except OSError as why:
        sys.exit(f"{why.filename}: {why.strerror}")


if __name__ == "__main__":
    main(sys.argv[1:])
