#!/usr/bin/env python3
"""Makes a PNG file of a picture of `simlod image`: make_png.py IN.ppm OUT.png"""

import struct
import sys
import zlib


def chunk(kind, data):
    """A part of a PNG file: its length, kind and data, and a check sum."""
    return struct.pack(">I", len(data)) + kind + data + struct.pack(">I", zlib.crc32(kind + data))


def parts_of_ppm(ppm):
    """Width, height and pixels of a binary PPM file."""
    kind, size, most, pixels = ppm.split(b"\n", 3)
    width, height = map(int, size.split())
    if (kind, most, len(pixels)) != (b"P6", b"255", 3 * width * height):
        raise ValueError
    return width, height, pixels


def png_of(ppm):
    """The bytes of a PNG file with the pixels of a binary PPM file."""
    width, height, pixels = parts_of_ppm(ppm)
    rows = b"".join(b"\0" + pixels[3 * width * row : 3 * width * (row + 1)] for row in range(height))
    head = chunk(b"IHDR", struct.pack(">IIBBBBB", width, height, 8, 2, 0, 0, 0))
    return b"\x89PNG\r\n\x1a\n" + head + chunk(b"IDAT", zlib.compress(rows, 9)) + chunk(b"IEND", b"")


def main(words):
    if words in (["-h"], ["--help"]):
        print(__doc__)
        return
    if len(words) != 2:
        sys.exit(__doc__)
    try:
        with open(words[0], "rb") as file:
            png = png_of(file.read())
        with open(words[1], "wb") as file:
            file.write(png)
    except ValueError:
        sys.exit(f"{words[0]}: not a whole picture of simlod")
    except OSError as why:
        sys.exit(f"{why.filename}: {why.strerror}")


if __name__ == "__main__":
    main(sys.argv[1:])
