"""One page of several pictures, each under its name. look.py makes one of six views."""

from make_png import parts_of_ppm

GAP = 12  # pixels round each picture
ROWS = 2  # the lines of the page
INK = 200
# The letters of the names, in seven rows of five bits.
LETTERS = {
    "a": "00 00 0e 01 0f 11 0f",
    "b": "10 10 1e 11 11 11 1e",
    "c": "00 00 0e 10 10 10 0e",
    "e": "00 00 0e 11 1f 10 0e",
    "h": "10 10 1e 11 11 11 11",
    "n": "00 00 1e 11 11 11 11",
    "o": "00 00 0e 11 11 11 0e",
    "r": "00 00 16 18 10 10 10",
    "s": "00 00 0f 10 0e 01 1e",
    "t": "08 08 1e 08 08 08 06",
    "u": "00 00 11 11 11 11 0f",
    "v": "00 00 11 11 11 0a 04",
    "w": "00 00 11 11 15 15 0a",
}
TALL = 14  # of a name: each bit is two pixels wide and high


class Canvas:
    """A black picture on which others are laid."""

    def __init__(self, width, height):
        self.width, self.height = width, height
        self.pixels = bytearray(3 * width * height)

    def lay(self, left, top, width, rows):
        """Lays rows of pixels, each of this width, with their first one here."""
        for row, line in enumerate(rows):
            at = 3 * ((top + row) * self.width + left)
            self.pixels[at : at + 3 * width] = line

    def ppm(self):
        return b"P6\n%d %d\n255\n" % (self.width, self.height) + bytes(self.pixels)


def name_rows(name):
    """The pixels of a name, row by row."""
    for bits in zip(*(bytes.fromhex(LETTERS[it]) for it in name)):
        line = b"".join(bytes([INK * (byte >> bit & 1)]) * 6 for byte in bits for bit in (4, 3, 2, 1, 0, 5))
        yield line
        yield line


def page_of(pictures):
    """The PPM file of a page of named PPM files, as many in each of its lines."""
    parts = [(name, *parts_of_ppm(it)) for name, it in pictures.items()]
    each = -(-len(parts) // ROWS)
    lines = [parts[at : at + each] for at in range(0, len(parts), each)]
    wide = max(width for _, width, _, _ in parts)
    heights = [max(height for _, _, height, _ in line) for line in lines]
    page = Canvas(each * (wide + GAP) + GAP, sum(heights) + len(lines) * (TALL + 2 * GAP) + GAP)
    top = GAP
    for line, height in zip(lines, heights):
        for place, (name, width, tall, pixels) in enumerate(line):
            left = GAP + place * (wide + GAP)
            page.lay(left, top, 12 * len(name), name_rows(name))
            rows = (pixels[3 * width * row : 3 * width * (row + 1)] for row in range(tall))
            page.lay(left + (wide - width) // 2, top + TALL + GAP + (height - tall) // 2, width, rows)
        top += height + TALL + 2 * GAP
    return page.ppm()
