#!/usr/bin/env python3
"""Makes a point cloud that looks like an airborne survey of a small village.

The scene is 200 by 200 metres: fields, a road with houses and a church, a river with a
footbridge, and wooded hills. A scanner flies over it in four strips, and then once round
each house. Each of its beams gives one point: the first thing that it meets, or what
stands below a crown that lets it through. Points stand in the order of the beams, as
lines 'x y z red green blue' with coordinates in metres and three decimals.

The same number of points and the same seed give the same file.
"""

import argparse
import math
import random
import sys

SIDE = 200.0  # metres along x and along y
CELL = 4.0  # side of the cells in which nearby objects are looked up
FLIGHT_HEIGHT = 70.0
LOOK = 0.27  # lines of beams lean forward and backward by turns, to see behind houses and trees
STRIP = 50.0  # distance of two flight lines
OVERLAP = 5.0
SLANT = 0.45  # no beam leans further to the side, in metres for each metre of height
WALLS = 0.13  # the part of all points that comes from the flights round the houses
SUN = (-0.46, -0.38, 0.80)


def bump(x, y, at_x, at_y, height, radius):
    return height * math.exp(-((x - at_x) ** 2 + (y - at_y) ** 2) / (2 * radius * radius))


def smooth(low, high, value):
    """Rises from 0 at low to 1 at high, without a kink."""
    part = min(max((value - low) / (high - low), 0.0), 1.0)
    return part * part * (3 - 2 * part)


def river_y(x):
    return 112 + 17 * math.sin((x - 20) / 33) + 4 * math.sin(x / 13)


def road_y(x):
    return 46 + 5 * math.sin(x / 45)


def path_x(y):
    return 104 + 9 * math.sin((y - 46) / 24)


def river_distance(x, y):
    slope = river_y(x + 0.5) - river_y(x - 0.5)
    return abs(y - river_y(x)) / math.hypot(1, slope)


def water_level(x):
    return 6.0 - 0.008 * x


def open_height(x, y):
    """The ground without the river."""
    hills = bump(x, y, 46, 172, 27, 27) + bump(x, y, 150, 182, 17, 30) + bump(x, y, 168, 76, 5, 15)
    return 9.5 + 0.9 * math.sin(x / 41) + 0.8 * math.cos(y / 29) + hills


def dry_height(x, y):
    """The ground, with the bed of the river cut into it."""
    bank = smooth(4.0, 17.0, river_distance(x, y))
    return (water_level(x) - 0.4) * (1 - bank) + open_height(x, y) * bank


class Field:
    """Values at whole metres, with straight lines between them."""

    def __init__(self, at):
        self.rows = [[at(float(x), float(y)) for x in range(int(SIDE) + 2)] for y in range(int(SIDE) + 2)]

    def at(self, x, y):
        i, j = int(x), int(y)
        u, v = x - i, y - j
        low, high = self.rows[j], self.rows[j + 1]
        return (low[i] * (1 - u) + low[i + 1] * u) * (1 - v) + (high[i] * (1 - u) + high[i + 1] * u) * v


def lit(normal):
    """How bright a face is, from 0.45 in the shade to 1.15 towards the sun."""
    length = math.sqrt(sum(n * n for n in normal))
    cosine = sum(n * s for n, s in zip(normal, SUN)) / length
    return 0.45 + 0.7 * max(cosine, 0.0)


class Beam:
    """Passes over the place (x, y), at the height z of the ground there, and leans by (dx, dy) a metre of height."""

    __slots__ = ("x", "y", "z", "dx", "dy")

    def __init__(self, x, y, z, dx, dy):
        self.x, self.y, self.z, self.dx, self.dy = x, y, z, dx, dy

    def place(self, t):
        return self.x + self.dx * t, self.y + self.dy * t, self.z + t


class House:
    """A box under a gable roof. The ridge runs along u, the eaves stand at v of plus and minus half the width."""

    def __init__(self, ground, x, y, turn, length, width, wall, rise, roof_colour, wall_colour):
        self.x, self.y = x, y
        self.cos, self.sin = math.cos(turn), math.sin(turn)
        self.half_length, self.half_width = length / 2, width / 2
        self.base = min(ground.at(x + i * length / 2, y + j * width / 2) for i in (-1, 1) for j in (-1, 1)) - 0.3
        self.eave = ground.at(x, y) + wall
        self.rise = rise
        self.roof_colour, self.wall_colour = roof_colour, wall_colour
        self.radius = math.hypot(length, width) / 2 + 0.6
        self.height = wall + rise

    def turned(self, x, y):
        return x * self.cos + y * self.sin, y * self.cos - x * self.sin

    def normal(self, u, v, up):
        return (u * self.cos - v * self.sin, u * self.sin + v * self.cos, up)

    def hit(self, beam, rng):
        """Where the beam meets the house: the height above its ground, the place and the colour."""
        u, v = self.turned(beam.x - self.x, beam.y - self.y)
        du, dv = self.turned(beam.dx, beam.dy)
        found = None
        for t, colour, light in [*self.roof(beam.z, u, v, du, dv), *self.walls(beam.z, u, v, du, dv)]:
            if t > 0 and (found is None or t > found[0]):
                found = t, colour, light
        if found is None:
            return None
        t, colour, light = found
        return t, beam.place(t), shaded(colour, light * rng.uniform(0.92, 1.06))

    def roof(self, z, u, v, du, dv):
        a, b, pitch = self.half_length + 0.4, self.half_width, self.rise / self.half_width
        for side in (-1, 1):
            t = (self.eave + self.rise - z - pitch * side * v) / (1 + pitch * side * dv)
            at_v = v + dv * t
            if 0 <= side * at_v <= b + 0.5 and abs(u + du * t) <= a:
                yield t, self.roof_colour, lit(self.normal(0, side * pitch, 1))

    def walls(self, z, u, v, du, dv):
        a, b = self.half_length, self.half_width
        for side in (-1, 1):
            t = (side * b - v) / dv if dv else -1
            if abs(u + du * t) <= a and self.base <= z + t <= self.eave:
                yield t, self.wall_at(u + du * t, z + t), self.wall_light(0, side)
            t = (side * a - u) / du if du else -1
            if abs(v + dv * t) <= b and self.base <= z + t <= self.gable(v + dv * t):
                yield t, self.wall_at(v + dv * t, z + t), self.wall_light(side, 0)

    def gable(self, v):
        return self.eave + self.rise * (1 - abs(v) / self.half_width)

    def wall_light(self, u, v):
        return lit(self.normal(u, v, 0)) + 0.15

    def wall_at(self, along, z):
        """The colour of a wall, which has rows of windows."""
        is_window = 0.8 < (self.eave - z) % 2.9 < 2.1 and z > self.base + 1.0 and along % 2.6 < 1.1
        return (74, 86, 104) if is_window else self.wall_colour

    def wall_area(self):
        return 4 * (self.half_length + self.half_width) * self.height

    def round_flight(self, count, rng):
        """Points on the four walls, by columns from the ground up."""
        around = 4 * (self.half_length + self.half_width)
        columns = max(1, round(math.sqrt(count * around / self.height)))
        for column in range(columns):
            first, end = count * column // columns, count * (column + 1) // columns
            for i in range(first, end):
                place = around * (column + rng.random()) / columns
                rising = (i - first + rng.uniform(0.1, 0.9)) / (end - first)
                yield self.wall_point(place, rising, rng)

    def wall_point(self, around, rising, rng):
        """A point of the wall that stands so far on the way round the house."""
        a, b = self.half_length, self.half_width
        for side_u, side_v, length in ((0, -1, 2 * a), (1, 0, 2 * b), (0, 1, 2 * a), (-1, 0, 2 * b)):
            if around <= length:
                break
            around -= length
        along = around - length / 2
        u, v = (along, side_v * b) if side_v else (side_u * a, along)
        top = self.eave if side_v else self.gable(v)
        z = self.base + (top - self.base) * rising + rng.gauss(0, 0.01)
        u, v = u + rng.gauss(0, 0.015), v + rng.gauss(0, 0.015)
        east, north, _ = self.normal(u, v, 0)
        colour = shaded(self.wall_at(along, z), self.wall_light(side_u, side_v) * rng.uniform(0.94, 1.06))
        return (self.x + east, self.y + north, z), colour


class Tree:
    """A trunk below a crown, which is an egg of leaves or a cone of needles."""

    def __init__(self, ground, x, y, crown_radius, height, colour, is_cone):
        self.x, self.y, self.z = x, y, ground.at(x, y)
        self.crown, self.colour, self.is_cone = crown_radius, colour, is_cone
        self.height, self.radius = height, crown_radius
        self.bare = height * (0.12 if is_cone else 0.28)  # height of the lowest leaves

    def hit(self, beam, rng):
        x, y, z = beam.x - self.x, beam.y - self.y, beam.z - self.z
        span = self.cone(x, y, z, beam) if self.is_cone else self.egg(x, y, z, beam)
        if span is None:
            return None
        out, top = span
        t = top - rng.expovariate(1.6)
        if t >= out and t > 0:
            place = beam.place(t)
            return t, place, self.leaf_colour(place, rng)
        return self.trunk(x, y, z, rng)

    def egg(self, x, y, z, beam):
        tall, wide = (self.height - self.bare) / 2, self.crown
        z -= self.bare + tall
        a = (beam.dx**2 + beam.dy**2) / wide**2 + 1 / tall**2
        b = (x * beam.dx + y * beam.dy) / wide**2 + z / tall**2
        c = (x * x + y * y) / wide**2 + (z / tall) ** 2 - 1
        inside = b * b - a * c
        return ((-b - math.sqrt(inside)) / a, (-b + math.sqrt(inside)) / a) if inside > 0 else None

    def cone(self, x, y, z, beam):
        low, top = self.bare - z, self.height - z
        slope = self.crown / (top - low)
        a = beam.dx**2 + beam.dy**2 - slope**2
        b = x * beam.dx + y * beam.dy + slope**2 * top
        c = x * x + y * y - (slope * top) ** 2
        inside = b * b - a * c
        if inside <= 0 or not a:
            return None
        ends = sorted(((-b - math.sqrt(inside)) / a, (-b + math.sqrt(inside)) / a))
        on_cone = [t for t in ends if low <= t <= top]
        if not on_cone:
            return None
        return (low if len(on_cone) == 1 else on_cone[0]), on_cone[-1]

    def leaf_colour(self, place, rng):
        x, y, z = place[0] - self.x, place[1] - self.y, place[2] - self.z
        middle = self.bare + (self.height - self.bare) * (0.25 if self.is_cone else 0.5)
        up = (z - middle) / (self.height - self.bare) * 2 + 0.25
        return shaded(self.colour, lit((x / self.crown, y / self.crown, up)) * rng.uniform(0.8, 1.12))

    def trunk(self, x, y, z, rng):
        """A beam that passes the crown close to the trunk meets the trunk."""
        if math.hypot(x, y) > 0.45 * self.crown:
            return None
        turn = rng.uniform(0, 2 * math.pi)
        rising = rng.uniform(0.05, 1.15) * self.bare
        thick = 0.06 + 0.018 * self.height
        place = self.x + thick * math.cos(turn), self.y + thick * math.sin(turn), self.z + rising
        return max(rising - z, 0.01), place, shaded((112, 84, 58), rng.uniform(0.7, 1.0))


def shaded(colour, light):
    return tuple(min(max(int(part * light), 0), 255) for part in colour)


class Scene:
    def __init__(self, rng):
        self.ground = Field(dry_height)
        self.light = Field(self.ground_light)
        self.mottle = Field(lambda x, y: rng.uniform(0.86, 1.10))
        self.houses = list(self.make_houses(rng))
        self.trees = list(self.make_trees(rng))
        self.near = self.index([*self.houses, *self.trees])

    @staticmethod
    def ground_light(x, y):
        east = dry_height(x + 0.5, y) - dry_height(x - 0.5, y)
        north = dry_height(x, y + 0.5) - dry_height(x, y - 0.5)
        return lit((-east, -north, 1)) + 0.08

    def make_houses(self, rng):
        roofs = [(168, 72, 50), (150, 60, 45), (122, 62, 50), (96, 98, 108), (178, 96, 62)]
        walls = [(236, 228, 210), (240, 236, 228), (226, 206, 168), (214, 196, 180)]
        for i in range(9):
            x = 18 + 19 * i + rng.uniform(-2, 2)
            turn = math.atan((road_y(x + 1) - road_y(x - 1)) / 2) + rng.uniform(-0.08, 0.08)
            for side in (-1, 1):
                crossed = rng.random() < 0.3
                if abs(x - path_x(58)) < 9 and side == 1 or rng.random() < 0.12:
                    continue
                y = road_y(x) + side * (10.5 + rng.uniform(-1, 1.5))
                yield House(
                    self.ground, x, y, turn + crossed * math.pi / 2, rng.uniform(9.5, 13), rng.uniform(7, 8.8),
                    rng.uniform(3.2, 6.0), rng.uniform(2.6, 4.0), rng.choice(roofs), rng.choice(walls),
                )
        church = dict(roof_colour=(88, 92, 104), wall_colour=(232, 224, 204))
        yield House(self.ground, 168, 76, 0.12, 19, 9.5, 7.5, 5.5, **church)
        yield House(self.ground, 156.8, 74.6, 0.12, 5, 5, 17.5, 7.0, **church)
        yield House(self.ground, 30, 78, -0.3, 22, 11, 5.0, 4.5, (116, 74, 58), (148, 104, 78))

    def make_trees(self, rng):
        greens = [(88, 132, 58), (74, 118, 50), (108, 146, 62), (128, 150, 66), (96, 138, 78)]
        needles = [(44, 88, 54), (52, 98, 60), (38, 80, 56)]
        autumn = [(196, 138, 52), (178, 102, 46)]
        places = []
        for x, y in self.tree_places(rng):
            gap = 3.4 if y > 130 else 4.5
            if self.is_free(x, y, places, gap):
                places.append((x, y))
                if y > 132 and x < 105 and rng.random() < 0.7:
                    yield Tree(self.ground, x, y, rng.uniform(1.9, 2.9), rng.uniform(10, 17), rng.choice(needles), True)
                elif river_distance(x, y) < 12 and rng.random() < 0.6:
                    yield Tree(self.ground, x, y, rng.uniform(1.5, 2.1), rng.uniform(12, 17), rng.choice(greens), False)
                else:
                    colour = rng.choice(greens if rng.random() < 0.9 else autumn)
                    yield Tree(self.ground, x, y, rng.uniform(2.3, 3.8), rng.uniform(6, 11.5), colour, False)
        for i in range(6):
            for j in range(4):
                x, y = 52 + 6.2 * i, 67 + 5.6 * j
                if self.is_free(x, y, [], 3):
                    yield Tree(self.ground, x, y, 1.9, rng.uniform(3.6, 4.6), (120, 150, 70), False)

    @staticmethod
    def tree_places(rng):
        for _ in range(900):  # the wood on the western hill
            yield rng.gauss(44, 22), rng.gauss(170, 17)
        for _ in range(170):  # a lighter wood on the eastern hill
            yield rng.gauss(152, 24), rng.gauss(172, 16)
        for _ in range(75):  # the banks of the river
            x = rng.uniform(10, 190)
            yield x, river_y(x) + rng.choice((-1, 1)) * rng.uniform(8, 12)
        for _ in range(70):  # gardens, and trees that stand alone
            yield rng.uniform(8, 192), rng.uniform(36, 98)

    def is_free(self, x, y, places, gap):
        if not (7 < x < SIDE - 7 and 7 < y < SIDE - 7) or river_distance(x, y) < 7.5:
            return False
        if abs(y - road_y(x)) < 5 or abs(x - path_x(y)) < 3.5 or y < 34 or 46 < x < 90 and 62 < y < 90 and gap > 3:
            return False
        if any(math.hypot(x - it.x, y - it.y) < it.radius + 2.2 for it in self.houses):
            return False
        return all((x - at_x) ** 2 + (y - at_y) ** 2 > gap * gap for at_x, at_y in places)

    @staticmethod
    def index(things):
        """For each way to look and each cell, the things that a beam to its ground may meet."""
        near = {}
        for thing in things:
            aside = thing.radius + (thing.height + 2) * SLANT
            first_y, last_y = int((thing.y - aside) // CELL), int((thing.y + aside) // CELL)
            for look in (-LOOK, LOOK):
                ends = thing.x, thing.x - (thing.height + 2) * look
                first_x, last_x = (min(ends) - thing.radius) // CELL, (max(ends) + thing.radius) // CELL
                for i in range(int(first_x), int(last_x) + 1):
                    for j in range(first_y, last_y + 1):
                        near.setdefault((look, i, j), []).append(thing)
        return near

    def point(self, x, y, dx, dy, rng):
        """What the beam to the ground at (x, y) meets: a place and a colour."""
        z, colour = self.bare_ground(x, y, rng)
        beam = Beam(x, y, z, dx, dy)
        found = 0.0, (x, y, z), colour
        for thing in self.near.get((dx, int(x // CELL), int(y // CELL)), ()):
            hit = thing.hit(beam, rng)
            if hit and hit[0] > found[0]:
                found = hit
        return found[1:]

    def bare_ground(self, x, y, rng):
        """The height and the colour of the ground without trees and houses."""
        z = self.ground.at(x, y) + rng.gauss(0, 0.03)
        light = self.light.at(x, y) * self.mottle.at(x, y) * rng.uniform(0.93, 1.07)
        if 80 < y < 145:
            wet = self.by_river(x, y, z, light, rng)
            if wet:
                return wet
        if 38 < y < 55 and abs(y - road_y(x)) < 2.6:
            is_line = abs(y - road_y(x)) < 0.14 and x % 6 < 3
            return z, shaded((225, 225, 220) if is_line else (112, 111, 112), 0.95 * light)
        if y > 46 and abs(x - 104) < 11 and abs(x - path_x(y)) < 1.2:
            return z, shaded((196, 172, 130), light)
        return self.crops(x, y, z, light)

    @staticmethod
    def by_river(x, y, z, light, rng):
        """The bridge, the water and the banks."""
        away = abs(y - river_y(x))
        if away > 18:
            return None
        if abs(x - path_x(y)) < 1.7 and away < 15:
            return water_level(x) + 3.2, shaded((150, 116, 84), rng.uniform(0.9, 1.1))
        away = river_distance(x, y)
        if away < 5.2:
            return water_level(x) + rng.gauss(0, 0.02), shaded((66, 104, 126), rng.uniform(0.9, 1.1))
        return (z, shaded((188, 174, 138), light)) if away < 6.4 else None

    @staticmethod
    def crops(x, y, z, light):
        """Fields in the south, meadow and the floor of the woods elsewhere."""
        if y < 30:
            part = (x + 0.15 * y) / SIDE
            if part < 0.36:
                return z + 0.5 + 0.12 * math.sin(2.1 * y), shaded((214, 192, 66), light)
            if part < 0.68:
                return z + 0.14 * math.sin(3.0 * x), shaded((138, 104, 74), light * (1 + 0.2 * math.sin(3.0 * x)))
            return z + 0.25, shaded((112, 150, 70) if int(x / 2.4) % 2 else (130, 164, 80), light)
        is_wood = y > 125 and math.hypot(x - 44, y - 170) < 37
        return z, shaded((108, 104, 66) if is_wood else (126, 152, 82), light)


def strips(points):
    """The strips of the flight as the y of the flight line, the ends of the swath, and how many beams go there."""
    number = int(SIDE / STRIP)
    swaths = []
    for i in range(number):
        low, high = max(i * STRIP - OVERLAP, 0.0), min((i + 1) * STRIP + OVERLAP, SIDE)
        swaths.append(((i + 0.5) * STRIP, low, high))
    whole = sum(high - low for _, low, high in swaths)
    done, reached = 0, 0.0
    for line, low, high in swaths:
        reached += high - low
        end = round(points * reached / whole)
        yield line, low, high, end - done
        done = end


def beams(points, rng):
    """The beams in the order of the flight: place on the ground and lean."""
    for k, (line, low, high, count) in enumerate(strips(points)):
        a_line = max(1, round(math.sqrt(count * (high - low) / SIDE)))
        lines = max(1, math.ceil(count / a_line))
        for i in range(count):
            row, column = divmod(i, a_line)
            along = (row + rng.uniform(0.1, 0.9)) / lines
            across = (column + rng.uniform(0.1, 0.9)) / a_line
            x = SIDE * (along if k % 2 == 0 else 1 - along)
            y = low + (high - low) * (across if row % 2 == 0 else 1 - across)
            yield x, y, LOOK if row % 2 == 0 else -LOOK, (line - y) / FLIGHT_HEIGHT


def wall_points(houses, count, rng):
    """The points of the flights round the houses, by houses."""
    whole = sum(house.wall_area() for house in houses)
    done, reached = 0, 0.0
    for house in houses:
        reached += house.wall_area()
        end = round(count * reached / whole)
        yield from house.round_flight(end - done, rng)
        done = end


def scan(points, rng):
    scene = Scene(rng)
    on_walls = round(points * WALLS)
    for x, y, dx, dy in beams(points - on_walls, rng):
        yield scene.point(x, y, dx, dy, rng)
    yield from wall_points(scene.houses, on_walls, rng)


def write_scan(name, points, seed):
    with open(name, "w", encoding="ascii", newline="\n") as out:
        for (x, y, z), (red, green, blue) in scan(points, random.Random(seed)):
            out.write(f"{x:.3f} {y:.3f} {z:.3f} {red} {green} {blue}\n")


def main():
    words = argparse.ArgumentParser(description="Makes an XYZ file of a village, as a scanner on an aeroplane sees it.")
    words.add_argument("output", help="name of the file to write")
    words.add_argument("--points", type=int, default=200_000, help="number of points, at least 1 (default 200000)")
    words.add_argument("--seed", type=int, default=1, help="seed of all chance (default 1)")
    given = words.parse_args()
    if given.points < 1:
        words.error("--points is at least 1")
    try:
        write_scan(given.output, given.points, given.seed)
    except OSError as why:
        sys.exit(f"{why.filename or given.output}: {why.strerror}")


if __name__ == "__main__":
    main()
