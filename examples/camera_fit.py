"""A camera in whole numbers that shows a scan from a named side. look.py draws by it; docs/CAMERA.md has its rules.

The scan is known by boxes that hold its points: the leaves of a fine listing of `simlod nodes`.
"""

import math
from dataclasses import dataclass

# Where the camera looks, by where it stands.
VIEWS = {
    "above": (0, 0, -1),
    "north": (0, -1, 0),
    "south": (0, 1, 0),
    "east": (-1, 0, 0),
    "west": (1, 0, 0),
    "corner": (1, 1, -0.7),
    "inside": (0, 1, -0.2),
}
MARGIN = 12  # pixels that stay free at each edge, for points that are drawn wide
SLACK = 2  # units: what is lost as lengths are rounded down and the camera's place is rounded
FIRST_DEPTH = 16  # units: nothing lies nearer
MOST_RATIO = 64  # of two scales that rows can undo


class NoCamera(Exception):
    """No camera shows the scan from there."""


@dataclass(frozen=True)
class Box:
    """A box of points: its least and its greatest corner, and how many points it holds."""

    low: tuple
    high: tuple
    points: int


@dataclass(frozen=True)
class Camera:
    pos: tuple
    rows: tuple
    size: tuple
    focal: int
    near: int
    dot: int

    def words(self):
        """The options of `simlod image`. All that can be drawn by points is."""
        numbers = {"pos": self.pos, "rows": sum(self.rows, ()), "size": self.size}
        numbers |= {"focal": (self.focal,), "near": (self.near,), "threshold": (1,), "dot": (self.dot,)}
        return [f"--{name}={','.join(map(str, values))}" for name, values in numbers.items()]


def boxes_of(listing, low, high):
    """The boxes of all leaves with points in a listing of `simlod nodes`, cut at the bounds of the scan."""
    first, *lines = listing.splitlines()
    *origin, bits = map(int, first.split()[1:])
    boxes = []
    for line in lines:
        words = line.split()
        if words[1] == "leaf" and words[2] != "0":
            least, side = list(origin), 1 << bits
            for octant in map(int, words[0][1:]):
                side //= 2
                least = [it + side * (octant >> axis & 1) for axis, it in enumerate(least)]
            most = [min(it + side - 1, edge) for it, edge in zip(least, high)]
            boxes.append(Box(tuple(map(max, least, low)), tuple(most), int(words[2])))
    return boxes


def parts_of(scales):
    """The parts by which rows are multiplied, so that axes with scales of their own are drawn alike."""
    return [it / max(scales) for it in scales]


def along(row, place):
    return sum(part * it for part, it in zip(row, place))


def rows_towards(forward, parts):
    """Right, down and forward in 1/1024, each part times that of its axis. Seen from above, north is at the top."""
    forward = [it / math.hypot(*forward) for it in forward]
    flat = math.hypot(*forward[:2])
    right = [forward[1] / flat, -forward[0] / flat, 0.0] if flat else [1.0, 0.0, 0.0]
    down = [forward[k - 2] * right[k - 1] - forward[k - 1] * right[k - 2] for k in range(3)]
    return tuple(tuple(round(1024 * it * part) for it, part in zip(row, parts)) for row in (right, down, forward))


def place_of(rows, right, down, depth):
    """The offset that lies so far along the rows, by Cramer's rule."""

    def minors(a, b):
        return [a[k - 2] * b[k - 1] - a[k - 1] * b[k - 2] for k in range(3)]

    whole = along(rows[0], minors(rows[1], rows[2]))
    columns = minors(rows[1], rows[2]), minors(rows[2], rows[0]), minors(rows[0], rows[1])
    return [1024 * (right * a + down * b + depth * c) / whole for a, b, c in zip(*columns)]


def middle_of(boxes):
    return [(min(it.low[axis] for it in boxes) + max(it.high[axis] for it in boxes)) / 2 for axis in range(3)]


def corners(box, middle):
    """The eight corners of a box, seen from the middle of all."""
    ends = [(low - mid, high - mid) for low, high, mid in zip(box.low, box.high, middle)]
    return [(x, y, z) for x in ends[0] for y in ends[1] for z in ends[2]]


class Reach:
    """How far the corners of all boxes lie along each row, and how much of the points may be left out at an edge."""

    def __init__(self, boxes, rows, drop):
        middle = middle_of(boxes)
        spots = [it for box in boxes for it in corners(box, middle)]
        self.right, self.down, self.depth = ([(a * x + b * y + c * z) / 1024 for x, y, z in spots] for a, b, c in rows)
        self.weights = [box.points for box in boxes for _ in range(8)]
        self.left_out = drop * sum(self.weights)

    def top(self, values):
        """The greatest value, or the least that leaves out no more points than may be."""
        if not self.left_out:
            return max(values)
        rest = self.left_out
        for at in sorted(range(len(values)), key=values.__getitem__, reverse=True):
            rest -= self.weights[at]
            if rest < 0:
                return values[at]
        return min(values)

    def back(self, across, half, focal):
        """How far behind the middle the camera stands, and how far aside, where both edges are touched."""
        slack = SLACK * (focal + half)
        one = self.top([focal * it - half * deep for it, deep in zip(across, self.depth)]) + slack
        other = self.top([-focal * it - half * deep for it, deep in zip(across, self.depth)]) + slack
        return (one + other) / (2 * half), (one - other) / (2 * focal)


def least_height(reach, focal, least, most, back):
    """The least height at which a camera so far back shows all, or the greatest that is allowed."""
    while least < most:
        tall = (least + most) // 2
        if reach.back(reach.down, tall / 2 - MARGIN, focal)[0] <= back:
            most = tall
        else:
            least = tall + 1
    return least


def dot_of(size, points):
    """So wide a dot that the points cover a picture about twice."""
    return max(2, min(16, round(math.sqrt(2 * size[0] * size[1] / max(1, points)))))


def whole_view(boxes, view, scales=(1, 1, 1), wide=1024, tallest=1024, drop=0.0):
    """The camera that shows all boxes from a side; with drop it may leave out so large a part of the points at each
    edge. The picture is as high as what it shows."""
    rows = rows_towards(VIEWS[view], parts_of(scales))
    middle, reach = middle_of(boxes), Reach(boxes, rows, drop)
    for focal in (wide, wide * 3 // 4, wide // 2, wide // 3, wide // 4):
        x_back, right = reach.back(reach.right, wide / 2 - MARGIN, focal)

        tall = least_height(reach, focal, wide // 4, tallest, x_back)
        y_back, down = reach.back(reach.down, tall / 2 - MARGIN, focal)
        back = max(x_back, y_back, FIRST_DEPTH + SLACK + reach.top([-it for it in reach.depth]))
        pos = tuple(round(mid + it) for mid, it in zip(middle, place_of(rows, right, down, -back)))
        if all(-(2**31) <= it < 2**31 for it in pos):
            size = wide, tall
            return Camera(pos, rows, size, focal, 1, dot_of(size, sum(it.points for it in boxes)))
    raise NoCamera(f"no camera stands {view} within 32 bits")


def median(values, weights):
    """The value in the middle, each as often as its weight says."""
    rest = sum(weights) / 2
    for value, weight in sorted(zip(values, weights)):
        rest -= weight
        if rest <= 0:
            return value
    raise ValueError("no value")


def inside_view(boxes, scales=(1, 1, 1), wide=1024):
    """A camera in the scan: a third of the way in from the south, a little above what lies there, looking north."""
    parts = parts_of(scales)
    low, high = ([edge(getattr(it, end)[axis] for it in boxes) for axis in range(3)] for edge, end in ((min, "low"), (max, "high")))
    longest = max((b - a) * part for a, b, part in zip(low, high, parts))
    spots = [([(a + b) / 2 for a, b in zip(it.low, it.high)], it.points) for it in boxes]
    x = median([spot[0] for spot, _ in spots], [points for _, points in spots])
    y = low[1] + 0.3 * (high[1] - low[1])
    here = [it for it in spots if all(abs(it[0][k] - (x, y)[k]) * parts[k] <= 0.05 * longest for k in (0, 1))] or spots
    z = median([spot[2] for spot, _ in here], [points for _, points in here]) + 0.05 * longest / parts[2]
    pos = tuple(max(-(2**31), min(2**31 - 1, round(it))) for it in (x, y, z))
    near = max(1, min(1_000_000_000, round(0.04 * longest)))
    return Camera(pos, rows_towards(VIEWS["inside"], parts), (wide, wide * 5 // 8), wide * 5 // 8, near, 5)


def camera_of(boxes, view, scales=(1, 1, 1), wide=1024, drop=0.0):
    if view == "inside":
        return inside_view(boxes, scales, wide)
    return whole_view(boxes, view, scales, wide, wide, drop)
