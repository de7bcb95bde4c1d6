#!/usr/bin/env python3
"""Makes a picture of a scan, with a camera that shows all of it: look.py SCAN.. [--from SIDE] [--out X.png]

It says in a line what the scan is, and prints the `simlod image` command that draws the picture, so that a
person can go on from there. The camera is chosen by `camera_fit.py` from the leaves of a fine listing.
"""

import argparse
import contextlib
import functools
import operator
import os
import re
import shlex
import subprocess
import sys

from camera_fit import MOST_RATIO, VIEWS, NoCamera, boxes_of, camera_of
from make_png import png_of
from page import page_of
from scans import NotRead, fields_of, is_las, read_header
from tint import edges, tint, values_of

TOP = os.path.dirname(os.path.dirname(os.path.abspath(__file__)))
SIDES = ("above", "north", "south", "east", "west", "corner")  # of a page of all views
USUAL_DECIMALS = 3  # what the program takes where it is not told
LEAST_EXTENT = 4096  # units: a text that reaches less far is taken with more decimals
DARK = 32  # a pixel is lit from this red, green or blue on
NO_COLOURS = "the file has no colours"


class Refused(Exception):
    """The line of a run that did not end well."""


class Scan:
    """Files of points, how the program is to read them, and what it says of them."""

    def __init__(self, program, files):
        self.program = program
        self.files = files
        self.options = []
        self.bounds = {}
        self.headers = []

    def run(self, command, *options):
        """What the program writes."""
        words = [self.program, command, *self.options, *options, *self.files]
        ran = subprocess.run(words, stdin=subprocess.DEVNULL, stdout=subprocess.PIPE, stderr=subprocess.PIPE)
        if ran.returncode:
            raise Refused(ran.stderr.decode(errors="replace").strip() or f"{command} ended with status {ran.returncode}")
        sys.stderr.write(ran.stderr.decode(errors="replace"))  # what a launcher says while it builds
        return ran.stdout

    def read(self, told):
        """Reads bounds and headers, with the decimals that were told or else with some that serve."""
        if told is None and not all(map(is_las, self.files)):
            self.choose_decimals()
        else:
            self.measure(told)
        if "min" not in self.bounds:
            raise Refused("no points")
        self.headers = [read_header(it) for it in self.files if is_las(it)]

    def measure(self, decimals):
        self.options = [] if decimals is None else [f"--decimals={decimals}"]
        lines = [line.split() for line in self.run("bounds").decode().splitlines()]
        self.bounds = {word: list(map(int, numbers)) for word, *numbers in lines}

    def choose_decimals(self):
        """Fewer decimals where the coordinates do not fit, and more where they would fall together."""
        decimals = USUAL_DECIMALS
        while not self.fits(decimals):
            decimals -= 1
        while decimals < 9 and 0 < max(self.extents()) < LEAST_EXTENT and decimals >= USUAL_DECIMALS:
            if not self.fits(decimals + 1):
                break
            decimals += 1
        self.options = []
        if decimals != USUAL_DECIMALS:
            self.options = [f"--decimals={decimals}"]
            print(f"decimals: {decimals}, where {USUAL_DECIMALS} are usual (--decimals={decimals})")

    def fits(self, decimals):
        """Whether all coordinates fit with so many decimals. Any other refusal is passed on."""
        try:
            self.measure(decimals)
        except Refused as why:
            if decimals and re.search(r"line \d+ field [123]: out of range|limit: axis . spans", str(why)):
                return False
            raise
        return True

    def extents(self):
        return [b - a for a, b in zip(self.bounds.get("min", [0]), self.bounds.get("max", [0]))]

    @property
    def scales(self):
        """Metres, or what the file counts in, of one unit on each axis."""
        if self.headers:
            return self.headers[0].scales
        return (10.0 ** -int(self.options[0].split("=")[1] if self.options else USUAL_DECIMALS),) * 3

    def parts(self):
        """The scales by which the camera's axes are drawn alike, or ones where rows of 1/1024 cannot say it."""
        scales = self.scales
        return scales if 0 < max(scales) <= MOST_RATIO * min(scales) else (1, 1, 1)

    # ---- what the scan is

    def told(self):
        """One line: the kind of the files, and how many points reach how far."""
        kinds = [f"LAS 1.{it.minor} format {it.format}" for it in self.headers[:1]]
        kinds += ["text"] if len(self.headers) < len(self.files) else []
        files = f" ({len(self.files)} files)" if len(self.files) > 1 else ""
        metres = [it * scale for it, scale in zip(self.extents(), self.scales)]
        size = " x ".join(f"{it:,.{1 if max(metres) >= 10 else 3}f}" for it in metres)
        differ = ["scales differ"] if len(set(self.scales)) > 1 else []
        return ", ".join([" and ".join(kinds) + files, f"{self.bounds['points'][0]:,} points", f"{size} m", *differ, self.colours()])

    def colours(self):
        if not self.headers:
            return "colours" if len(first_point(self.files[0])) >= 6 else "no colours"
        if self.headers[0].colours_at is None:
            return "no colours"
        return "colours in the low bytes" if "--rgb=low" in self.options else "colours"

    def hints(self):
        """What may be wrong with the scan, a line each."""
        scales = self.scales
        if self.parts() != scales:
            yield "the scales differ by more than rows can undo, so the picture is stretched (docs/CAMERA.md)"
        offsets = self.headers[0].offsets if self.headers else (0, 0, 0)
        ends = [[it * scale + offset for it, scale, offset in zip(self.bounds[end], scales, offsets)] for end in ("min", "max")]
        x, y, z = (it * scale for it, scale in zip(self.extents(), scales))
        on_globe = all(abs(end[0]) <= 180 and abs(end[1]) <= 90 for end in ends)
        if on_globe and 0 < max(x, y) < 1 and z > 10 * max(x, y):
            yield "x and y look like degrees: project the scan to metres first (docs/MISTAKES.md)"


def first_point(name):
    """The fields of the first point of a text."""
    with open(name, "rb") as file:
        return next(filter(None, map(fields_of, file)), [])


def colour_words(name, header):
    """The red, green and blue of some points of a LAS file, as words of 16 bits."""
    words = []
    with open(name, "rb") as file:
        for point in range(0, header.count, max(1, header.count // 2000)):
            file.seek(header.start + point * header.length + header.colours_at)
            raw = file.read(6)
            words += [raw[at] + 256 * raw[at + 1] for at in (0, 2, 4)]
    return words


def take_low_bytes(scan):
    """Takes the low bytes where all colours stand there."""
    coloured = [it for it in zip(filter(is_las, scan.files), scan.headers) if it[1].colours_at is not None]
    words = [word for name, header in coloured for word in colour_words(name, header)]
    if any(words) and max(words) < 256:
        scan.options.append("--rgb=low")


def lit(pixels, least, join=operator.or_):
    """How many pixels have a red, green or blue of at least so much, or with `operator.and_` all three."""
    flags = pixels.translate(bytes(it >= least for it in range(256)))
    channels = (int.from_bytes(flags[channel::3], "big") for channel in range(3))
    return functools.reduce(join, channels).to_bytes(len(pixels) // 3, "big").count(1)


def pixels_of(ppm):
    return ppm.split(b"\n", 3)[3]


class Look:
    """The pictures of a scan from some sides: their cameras, their commands, and the pictures themselves."""

    def __init__(self, scan, sides, wide, drop):
        self.scan = scan
        boxes = boxes_of(fine_listing(scan), scan.bounds["min"], scan.bounds["max"])
        self.cameras = {}
        for side in sides:
            try:
                self.cameras[side] = camera_of(boxes, side, scan.parts(), wide, drop)
            except NoCamera as why:
                if len(sides) == 1:
                    raise
                print(f"note: {why}")

    def words(self, side):
        return ["image", *self.scan.options, *self.cameras[side].words(), *self.scan.files]

    def command(self, side, out):
        """What a person can type to draw the picture anew, in the folder of the call."""
        program = os.path.relpath(self.scan.program)
        if os.sep not in program:
            program = os.path.join(os.curdir, program)
        return f"{' '.join(map(shlex.quote, [program, *self.words(side)]))} > {shlex.quote(stem(out) + '.ppm')}"

    def draw(self):
        return {side: self.scan.run("image", *camera.words()) for side, camera in self.cameras.items()}


def fine_listing(scan):
    """A listing with leaves of a two-thousandth of the points, or larger ones where they would be too many."""
    leaf = max(1, min(50_000, scan.bounds["points"][0] // 2000))
    while True:
        try:
            return scan.run("nodes", "--nodes=200000", f"--leaf={leaf}").decode()
        except Refused as why:
            if leaf == 50_000 or not re.search(r"limit: batch \d+ nodes ", str(why)):
                raise
        leaf = min(50_000, 4 * leaf)


def why_unseen(pictures, scan):
    """Why no shapes are seen in the pictures although something is drawn there, or None where some are."""
    drawn, seen = (sum(lit(pixels_of(it), least) for it in pictures) for least in (1, DARK))
    white = sum(lit(pixels_of(it), 255, operator.and_) for it in pictures)
    coloured = scan.colours() != "no colours"
    if 10 * seen <= drawn:
        none = f"{NO_COLOURS}, and next to no intensity in the high byte"
        return f"nothing is lit: {'the colours of the file are nearly black' if coloured else none}"
    if 10 * (drawn - white) <= drawn:
        return f"all is white: {'the colours of the file are' if coloured else NO_COLOURS}"
    return None


def have_intensities(scan):
    """Whether the points differ in intensity."""
    try:
        low, high = edges_of_all([values_of(it, "intensity") for it in scan.files])
    except NotRead:
        return False
    return low < high


def is_empty(pictures, scan):
    """Whether many points take up next to nothing of the pictures."""
    drawn = sum(lit(pixels_of(it), 1) for it in pictures)
    return scan.bounds["points"][0] >= 10_000 and 100 * drawn < sum(len(pixels_of(it)) // 3 for it in pictures)


def stem(out):
    return os.path.splitext(out)[0]


def tinted(scan, by, out):
    """The scan by copies beside the picture, with colours by height or intensity."""
    low, high = edges_of_all([values_of(it, by) for it in scan.files])
    if low == high:
        print(f"note: nearly all points have the same {by}, {low}")
    copies = []
    for number, name in enumerate(scan.files, 1):
        ending = ".las" if is_las(name) else ".xyz"
        copies.append(f"{stem(out)}-{by}{f'-{number}' if len(scan.files) > 1 else ''}{ending}")
        tint(name, copies[-1], by, low, high)
    print(f"colours by {by}: {', '.join(copies)} (a copy; the scan stays as it is)")
    scan.files = copies
    scan.options = [it for it in scan.options if it != "--rgb=low"]
    scan.headers = [read_header(it) for it in copies if is_las(it)]


def edges_of_all(lists):
    """The first and the last hundredth of all values together."""
    return edges([it for values in lists for it in values[:: max(1, len(values) // 100_000)]])


def build(program):
    """Runs the program on next to nothing, so that a launcher that builds it first is heard while it does."""
    words = [program, "bounds", f"{TOP}/examples/three.xyz"]
    status = subprocess.run(words, stdin=subprocess.DEVNULL, stdout=subprocess.DEVNULL).returncode
    if status:
        sys.exit(status)


def look(given):
    build(given.program)
    sides = SIDES if given.all else (given.side,)
    files = [f"./{it}" if it.startswith("-") else it for it in given.scan]
    name = os.path.splitext(os.path.basename(files[0]))[0]
    out = given.out or f"{name}-{'all' if given.all else given.side}.png"
    scan = Scan(given.program, files)
    scan.read(given.decimals)
    take_low_bytes(scan)
    print(scan.told())
    for hint in scan.hints():
        print(f"note: {hint}")
    if given.tint:
        tinted(scan, given.tint, out)
    view = Look(scan, sides, 512 if given.all else 1024, given.drop)
    if not given.print:
        pictures = view.draw()
        why = None if given.tint else why_unseen(pictures.values(), scan)
        if why:
            other = "; --tint intensity is the other" if have_intensities(scan) else ""
            print(f"{why}. So it is drawn as by --tint height{other}")
            tinted(scan, "height", out)
            pictures = view.draw()
        if is_empty(pictures.values(), scan):
            print("note: the picture is nearly empty: a few points may lie far off; try --drop 0.001")
    for side in view.cameras:
        print(view.command(side, side_name(out, side) if given.all else out))
    if not given.print:
        write(out, page_of(pictures) if given.all else pictures[given.side])


def side_name(out, side):
    return f"{stem(out)}-{side}.png"


def write(out, ppm):
    with open(out, "wb") as file:
        file.write(png_of(ppm))
    print(f"wrote {out}")


def share(word):
    with contextlib.suppress(ValueError):
        if 0 <= float(word) < 0.5:
            return float(word)
    raise argparse.ArgumentTypeError("takes a part of the points, from 0 to below 0.5, as 0.001")


def words_of(words):
    asked = argparse.ArgumentParser(description="Makes a picture of a scan, with a camera that shows all of it.")
    asked.add_argument("scan", nargs="+", help="LAS files or texts")
    sides = asked.add_mutually_exclusive_group()
    sides.add_argument("--from", dest="side", choices=tuple(VIEWS), default="corner", help="where the camera stands (default corner)")
    sides.add_argument("--all", action="store_true", help="one page of six views")
    asked.add_argument("--tint", choices=("height", "intensity"), help="draw a copy that is coloured so")
    asked.add_argument("--decimals", type=int, choices=range(10), metavar="D", help="decimals of a text's coordinates, 0 to 9")
    asked.add_argument("--drop", type=share, default=0.0, metavar="SHARE", help="the part of all points that may be left out at each edge, as 0.001")
    asked.add_argument("--out", metavar="X.png", help="the picture (default: named after the scan and the side)")
    asked.add_argument("--print", action="store_true", help="print the command alone, and draw nothing")
    asked.add_argument("--program", default=f"{TOP}/simlod", help="the program (default: the launcher at the top)")
    return asked.parse_args(words)


def main(words):
    given = words_of(words)
    given.program = os.path.abspath(given.program)
    try:
        look(given)
    except (Refused, NotRead, NoCamera) as why:
        sys.exit(str(why))
    except OSError as why:
        sys.exit(f"{why.filename}: {why.strerror}")


if __name__ == "__main__":
    main(sys.argv[1:])
