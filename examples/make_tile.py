#!/usr/bin/env python3
"""Makes a LAS file that looks like a tile of an airborne survey: one square kilometre in centimetres.

The tile has hills, a lake, fields, roads with houses, and woods. A scanner flies over it in eight
strips that overlap. Its beam swings across the strip, to and fro, and each swing is a line of
points. What a beam meets is looked up in a raster of cells of one metre: a surface, or anything
between a crown's foot and its top, or between the foot and the top of a wall.

Version 1.2 has point format 3, and version 1.4 has point format 7. The same number of points gives
the same file. 5,000,000 points take some seconds.
"""

import argparse
import array
import math
import random
import struct
import sys

SEED = 20240229
SIDE = 100_000  # of the tile, in centimetres
CELL = 100  # side of a cell
CELLS = SIDE // CELL
STRIPS = 8
OVERLAP = 1_500  # of a strip with each neighbour
COARSE = 20  # cells from one exact height of the ground to the next
LAKE_LEVEL = 9_200

# The kinds of ground and things: class, intensity, red, green and blue.
KINDS = {
    "meadow": (2, 150, 112, 146, 72),
    "field": (2, 130, 190, 172, 96),
    "ploughed": (2, 90, 134, 104, 74),
    "road": (11, 60, 112, 112, 118),
    "lake": (9, 12, 52, 84, 110),
    "leaves": (5, 180, 74, 118, 52),
    "needles": (5, 160, 40, 84, 54),
    "roof": (6, 110, 166, 78, 58),
    "flat roof": (6, 120, 150, 148, 142),
    "wall": (6, 200, 214, 204, 186),
}
SHADES = 16  # of each kind: a cell's number is that of its kind times 16 plus its shade
NUMBERS = {name: SHADES * place for place, name in enumerate(KINDS)}


def table_of(column, shaded):
    """What each number of a cell means, as `bytes.translate` takes it."""
    table = bytearray(256)
    for name, number in NUMBERS.items():
        for shade in range(SHADES):
            value = KINDS[name][column]
            table[number + shade] = min(255, value * (88 + shade) // 96 + shade) if shaded else value
    return bytes(table)


CLASSES, INTENSITIES = table_of(0, False), table_of(1, True)
COLOURS = [table_of(column, True) for column in (2, 3, 4)]


class Raster:
    """Of each cell the least height, how far above it a point may lie, and the cell's number."""

    def __init__(self, rng):
        self.rng = rng
        self.least = self.ground()
        self.span = [6] * (CELLS * CELLS)
        self.numbers = bytearray(CELLS * CELLS)
        self.shades = [it % SHADES for it in rng.randbytes(CELLS * CELLS)]
        self.lay_fields()
        self.fill_lake()
        self.lay_roads()
        self.plant_woods()
        self.build_houses()

    def ground(self):
        """Waves of several lengths, exact at every twentieth cell and straight between."""
        rng, waves = self.rng, []
        for length, height, count in ((60_000, 1_400, 4), (17_000, 420, 6), (5_000, 70, 8)):
            for _ in range(count):
                turn, bend = rng.uniform(0, math.tau), math.tau / (length * rng.uniform(0.7, 1.3))
                slope = bend * math.cos(turn), bend * math.sin(turn)
                waves.append((height / math.sqrt(count), *slope, rng.uniform(0, math.tau)))
        places = [CELL * COARSE * it for it in range(CELLS // COARSE + 1)]
        exact = [[10_000 + sum(h * math.cos(u * x + v * y + w) for h, u, v, w in waves) for x in places] for y in places]
        rows = [straight(row) for row in exact]
        heights = []
        for below, above in zip(rows, rows[1:]):
            for step in range(COARSE):
                heights += [int(a + (b - a) * step / COARSE) for a, b in zip(below, above)]
        return heights

    def lay_fields(self):
        names = [self.rng.choice(("meadow", "meadow", "field", "ploughed")) for _ in range(400)]
        for row in range(CELLS):
            for left in range(0, CELLS, 50):
                number = NUMBERS[names[row // 70 * 20 + left // 50]]
                at = row * CELLS + left
                self.numbers[at : at + 50] = bytes(number + it for it in self.shades[at : at + 50])

    def fill_lake(self):
        for at, height in enumerate(self.least):
            if height < LAKE_LEVEL:
                self.least[at], self.span[at] = LAKE_LEVEL, 2
                self.numbers[at] = NUMBERS["lake"] + self.shades[at] // 4

    def lay_roads(self):
        for at in range(CELLS):
            for middle in (180, 520, 830):
                bent = middle + int(25 * math.sin(at / 90 + middle))
                for side in range(-3, 4):
                    for cell in ((bent + side, at), (at, bent + side)):
                        if self.is_open(*cell):
                            self.set(*cell, "road", 0, 3)

    def set(self, column, row, name, above, span):
        """A cell of a kind, so far above the ground that is there."""
        at = row * CELLS + column
        self.least[at] += above
        self.span[at] = span
        self.numbers[at] = NUMBERS[name] + self.shades[at]

    def is_open(self, column, row):
        """Whether a cell is within the tile, and meadow, field or ploughed."""
        inside = 0 <= column < CELLS and 0 <= row < CELLS
        return inside and self.numbers[row * CELLS + column] < NUMBERS["road"]

    def plant_woods(self):
        """Trees stand near the middles of woods; no two crowns share a cell."""
        rng = self.rng
        middles = [(rng.randrange(CELLS), rng.randrange(CELLS), rng.randrange(40, 130)) for _ in range(14)]
        for _ in range(6_000):
            column, row, wide = rng.choice(middles)
            name = "needles" if wide < 80 else "leaves"
            self.plant(int(rng.gauss(column, wide / 2)), int(rng.gauss(row, wide / 2)), name)

    def plant(self, column, row, name):
        radius, height = self.rng.randrange(2, 6), self.rng.randrange(600, 2_600)
        for side in range(-radius, radius + 1):
            for forward in range(-radius, radius + 1):
                part = (side * side + forward * forward) / (radius * radius)
                if part <= 1 and self.is_open(column + side, row + forward):
                    foot = height * 3 // 10
                    self.set(column + side, row + forward, name, foot, 1 + int((height - foot) * (1 - 0.7 * part)))

    def build_houses(self):
        for _ in range(420):
            street = self.rng.choice((180, 520, 830)) + self.rng.choice((-1, 1)) * self.rng.randrange(32, 60)
            along = self.rng.randrange(CELLS - 30)
            wide, deep = self.rng.randrange(8, 22), self.rng.randrange(8, 16)
            left, front = (street, along) if self.rng.random() < 0.5 else (along, street)
            self.build(left, front, wide, deep)

    def build(self, left, front, wide, deep):
        """A house whose foot is level, with walls in its outer cells, where all the ground is open."""
        cells = [(left + side, front + forward) for side in range(wide) for forward in range(deep)]
        if not all(self.is_open(*it) for it in cells):
            return
        foot = min(self.least[row * CELLS + column] for column, row in cells)
        height, ridge = self.rng.randrange(300, 900), self.rng.choice((0, 40, 60))
        for column, row in cells:
            edge = min(column - left, left + wide - 1 - column, row - front, front + deep - 1 - row)
            self.least[row * CELLS + column] = foot
            if edge == 0:
                self.set(column, row, "wall", 0, height)
            else:
                self.set(column, row, "roof" if ridge else "flat roof", height + ridge * edge, 4 + ridge)


def straight(exact):
    """The heights of the cells of a row, straight from one exact height to the next."""
    return [a + (b - a) * step / COARSE for a, b in zip(exact, exact[1:]) for step in range(COARSE)]


class Layout:
    """How a point stands in a record, and the header before all records."""

    def __init__(self, version):
        self.minor = {"1.2": 2, "1.4": 4}[version]
        wide = self.minor == 4
        self.format, self.length, self.header = (7, 36, 375) if wide else (3, 34, 227)
        self.returns = 0x11 if wide else 0x09  # the first of one
        places = (16, 18, 2, 22, 30) if wide else (15, 16, 1, 20, 28)
        self.class_at, self.angle_at, self.angle_width, self.time_at, self.rgb_at = places

    def head(self, points, least, most):
        edges = [edge * 0.01 for pair in zip(most, least) for edge in pair]
        older = points if self.minor == 2 else 0
        encoding = 17 if self.minor == 4 else 1  # times of GPS, and in 1.4 a reference system as text
        head = struct.pack("<4sHH16sBB", b"LASF", 1, encoding, bytes(16), 1, self.minor)
        head += struct.pack("<32s32sHHHII", b"made", b"make_tile.py", 60, 2024, self.header, self.header, 0)
        head += struct.pack("<BHI5I", self.format, self.length, older, older, 0, 0, 0, 0)
        head += struct.pack("<12d", 0.01, 0.01, 0.01, 0.0, 0.0, 0.0, *edges)
        if self.minor == 4:
            head += struct.pack("<QQIQ15Q", 0, 0, 0, points, points, *[0] * 14)
        return head

    def records(self, columns, numbers, angle, time):
        """The records of a line of points, which is filled column by column."""
        count, length = len(numbers), self.length
        block = bytearray(count * length)
        for start, values in zip((0, 4, 8), columns):
            fill(block, start, length, values.tobytes(), 4)
        block[13::length] = numbers.translate(INTENSITIES)
        block[14::length] = bytes([self.returns]) * count
        block[self.class_at :: length] = numbers.translate(CLASSES)
        fill(block, self.angle_at, length, struct.pack("<h", angle)[: self.angle_width] * count, self.angle_width)
        fill(block, self.time_at, length, struct.pack("<d", time) * count, 8)
        for place, table in enumerate(COLOURS):
            bytes_of_colour = numbers.translate(table)
            block[self.rgb_at + 2 * place :: length] = bytes_of_colour  # a word is 257 times the byte
            block[self.rgb_at + 2 * place + 1 :: length] = bytes_of_colour
        return block


def fill(block, start, length, values, width):
    """Puts values of a width into a column of a block of records."""
    for byte in range(width):
        block[start + byte :: length] = values[byte::width]


def swing(rng, raster, left, right, y, count, back):
    """The coordinates of a line of points across a strip, and the numbers of their cells."""
    wide = right - left
    xs = [left + (place * 256 + jitter) * wide // (count * 256) for place, jitter in enumerate(rng.randbytes(count))]
    if back:
        xs.reverse()
    first = y // CELL * CELLS
    cells = [first + x // CELL for x in xs]
    least, span = raster.least, raster.span
    zs = [least[cell] + (span[cell] * part >> 8) for cell, part in zip(cells, rng.randbytes(count))]
    ys = [y + (jitter & 15) for jitter in rng.randbytes(count)]
    numbers = bytes(map(raster.numbers.__getitem__, cells))
    return [array.array("i", it) for it in (xs, ys, zs)], numbers


def lines(points):
    """The lines of all strips: borders of the strip, number of the line and of all lines, points."""
    for strip in range(STRIPS):
        left = max(0, SIDE * strip // STRIPS - OVERLAP)
        right = min(SIDE, SIDE * (strip + 1) // STRIPS + OVERLAP)
        share = points * (strip + 1) // STRIPS - points * strip // STRIPS
        count = max(1, math.isqrt(share * SIDE // (right - left)))
        for line in range(count):
            here = share * (line + 1) // count - share * line // count
            if here:
                yield strip, left, right, line, count, here


def write_tile(name, points, layout):
    """Writes the records, and then the header, which tells the least box round all points."""
    rng = random.Random(SEED)
    raster = Raster(rng)
    least, most, time = [2**31 - 1] * 3, [-(2**31)] * 3, 300_000.0
    with open(name, "wb", buffering=1 << 20) as out:
        out.write(bytes(layout.header))
        for strip, left, right, line, count, here in lines(points):
            up = line if strip % 2 == 0 else count - 1 - line
            columns, numbers = swing(rng, raster, left, right, up * (SIDE - 16) // count, here, line % 2 == 1)
            least = [min(a, min(it)) for a, it in zip(least, columns)]
            most = [max(a, max(it)) for a, it in zip(most, columns)]
            time += 0.01
            out.write(layout.records(columns, numbers, 0, time))
        out.seek(0)
        out.write(layout.head(points, least if points else [0] * 3, most if points else [0] * 3))


def main(words):
    asked = argparse.ArgumentParser(description="Makes a LAS file of a survey's tile.")
    asked.add_argument("out", help="the file to write")
    asked.add_argument("--points", type=int, default=5_000_000, help="how many points, 0 to 4294967295 (default 5000000)")
    formats = "1.2 with point format 3, or 1.4 with 7 (default 1.2)"
    asked.add_argument("--version", choices=("1.2", "1.4"), default="1.2", help=formats)
    given = asked.parse_args(words)
    if not 0 <= given.points < 2**32:
        asked.error("--points takes 0 to 4294967295")
    try:
        write_tile(given.out, given.points, Layout(given.version))
    except OSError as why:
        sys.exit(f"{why.filename or given.out}: {why.strerror}")


if __name__ == "__main__":
    main(sys.argv[1:])
