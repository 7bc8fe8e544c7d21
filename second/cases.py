#!/usr/bin/env python3
"""Writes the stream of run cases that docs/CASES.md describes to standard output, always the same.

usage: python3 second/cases.py SECOND > stream

SECOND is the built second program. It is asked for the surfaces of a patch and for the lengths of its chains; no answer
to a case stands here.
"""

import itertools
import math
import random
import struct
import subprocess
import sys

U64 = 2**64 - 1
LOWEST, HIGHEST = -(2**31), 2**31 - 1
LIMIT = 1_000_000

TRIANGLE = [(0, 0), (1, 0), (0, 1)]
SQUARE = [(0, 0), (2, 0), (2, 2), (0, 2), (1, 1)]
PENTAGON = [(0, 0), (4, 0), (5, 4), (2, 6), (-1, 4)]
GRID23 = [(x, y) for y in range(2) for x in range(3)]
GRID33 = [(x, y) for y in range(3) for x in range(3)]
GRID25 = [(x, y) for y in range(2) for x in range(5)]
OUTLINE = [(0, 0), (4, 0), (0, 4), (2, 0), (6, 0), (2, 2), (0, -3), (8, -4)]
FENCE = [(0, 0), (2, 0), (2, 2), (0, 2), (1, 0)]
MIDDLE_FIRST = [(1, 0), (0, 0), (2, 0), (0, 1), (2, 3)]
LATE_START = [(0, 0), (4, 0), (2, 0), (6, 0), (1, 3), (-2, 0)]
EXTREMES = [(-LIMIT, -LIMIT), (LIMIT, -LIMIT), (LIMIT, LIMIT), (-LIMIT, LIMIT), (0, 0), (1, 0), (LIMIT - 1, LIMIT)]
DECAGON = [(0, 0), (1, -2), (3, -3), (5, -2), (6, 0), (6, 1), (5, 3), (3, 4), (1, 3), (0, 1)]
PARABOLA = [(x, x * x) for x in range(-4, 6)]

# The units of a shot from a controller; any byte but 0 is feet.
METRES, FEET = 0, 1
# What feet are multiplied by and then divided by, in each edition; and numbers that are no edition, though fewer bits
# of some of them are.
EDITIONS = {1: (1200000, 3937), 2: (3048, 10)}
NO_EDITIONS = [0, 3, 4, 16, 17, 255, 256, 257, 258, 2**16 + 1, 2**32 + 1, 2**32 + 2, 2**63 + 1, U64]
LARGEST, SMALLEST, LEAST_NORMAL = sys.float_info.max, 5e-324, sys.float_info.min
# East and north as a field book has them, in either unit.
BOOK = [(0.0, 0.0), (125.5, 0.32), (124.87, 98.41), (0.75, 101.023), (62.3, 48.905)]
BOOK += [(-17.08, 33.333), (91.6, -40.125), (12.0005, 77.7), (-250.004, -61.5), (199.999, 150.01)]
# The patterns of NaNs, quiet and not, with a few bits and with all, of both signs.
NANS = [0x7FF8 << 48, 0xFFF8 << 48, (0x7FF0 << 48) + 1, (0xFFF0 << 48) + 1, 0x7FF4 << 48, 2**63 - 1, U64]

# A run of coordinates for each way in which shots are refused, and for several ways at once.
BAD_SHOTS = [
    [0, 0, 1, 0, 0, 1, 5],
    [0, 0, 1, 0],
    [0, 0, 1, 0, 0, LIMIT + 1],
    [0, 0, 3, 1, 0, 1, 3, 1],
    [0, 0, 1, 1, 2, 2, 3, 3],
    [0, 0, 0, 0, 5, 5, -LIMIT - 1, 0],
]

rng = random.Random(20240101)


# The form of the stream


def written(argument):
    """A number, or a run of numbers or shots in brackets."""
    if isinstance(argument, int):
        return str(argument)
    flat = [v for item in argument for v in (item if isinstance(item, tuple) else [item])]
    items = []
    for value, run in itertools.groupby(flat):
        count = len(list(run))
        items += [f"{value}*{count}"] if count > 3 else [str(value)] * count
    return "[" + " ".join(items) + "]"


def case(call, *arguments):
    print(call, *map(written, arguments))


def remark(text):
    print("#", text)


# Patches, lists and records


def triples(n):
    return list(itertools.combinations(range(n), 3))


def words(n, names):
    """The two words of a list of triples, given as (i, j, k) or as text like "012 023"."""
    if isinstance(names, str):
        names = [tuple(map(int, name)) for name in names.split()]
    bits = sum(1 << triples(n).index(t) for t in names)
    return [bits & U64, bits >> 64]


def turn(patch, i, j, k):
    (ax, ay), (bx, by), (cx, cy) = patch[i], patch[j], patch[k]
    return (bx - ax) * (cy - ay) - (by - ay) * (cx - ax)


def solid(patch):
    """The triples that are not flat."""
    return [t for t in triples(len(patch)) if turn(patch, *t)]


def accepted(patch):
    return len(set(patch)) == len(patch) and bool(solid(patch))


def patch_record(patch):
    body = bytes([1, len(patch)]) + b"".join(struct.pack(">ii", *shot) for shot in patch)
    return list(struct.pack(">H", len(body)) + body)


def surface_record(n, surface):
    body = [1, n, len(surface)] + [shot for triple in surface for shot in triple]
    return list(struct.pack(">H", len(body))) + body


def lent_bytes(length):
    """A buffer that may hold anything."""
    return [rng.randrange(256) for _ in range(length)]


def second(program, given):
    """What the second program prints."""
    return subprocess.run([sys.argv[1], program], input=given, capture_output=True, check=True).stdout.decode()


def walk(patch):
    """The number of circuits and the surfaces of a patch, in the order of the walk from its placing surface."""
    first, *rows, _ = second("patchwalk", bytes(patch_record(patch))).splitlines()
    surfaces = [[tuple(map(int, name)) for name in row.split()[3:]] for row in rows]
    return int(first.split()[3]), surfaces


def chain_lengths(patch):
    """The lengths of the south and of the north chain."""
    answer = second("runcases", f"chains {written(patch)} [0*10] [0*10]".encode())
    return [int(length) for length in answer.split()[2:4]]


def table(n, surfaces):
    return [word for surface in surfaces for word in words(n, surface)]


def random_patch(n, kind):
    """An accepted patch: "small" and "grid" have many shots on lines, "wide" hardly any."""
    size = {"grid": 1 if n < 5 else 2 if n < 9 else 3, "small": 6, "wide": LIMIT}[kind]
    low = -size if kind == "wide" else 0
    while True:
        patch = [(rng.randint(low, size), rng.randint(low, size)) for _ in range(n)]
        if accepted(patch):
            return patch


def fenced_patch(n, corners):
    """A triangle or a quadrilateral whose other shots are mostly posts along its sides, in any order."""
    ends = [(0, 0), (8, 0), (8, 8), (0, 8)] if rng.random() < 0.3 else [(-8, -4), (4, -8), (12, 4), (-4, 12)]
    ends = ends[:corners]
    sides = list(zip(ends, ends[1:] + ends[:1]))
    posts = {(ax + (bx - ax) * t // 4, ay + (by - ay) * t // 4) for (ax, ay), (bx, by) in sides for t in [1, 2, 3]}
    return rng.sample(ends + rng.sample([*sorted(posts), (6, 1), (7, 1)], n - len(ends)), n)


def shuffled(patch):
    return rng.sample(patch, len(patch))


def turned(patch, quarters):
    """Turned to the left, so that each side stands south, east, north or west in its turn."""
    return turned([(-y, x) for x, y in patch], quarters - 1) if quarters else patch


# Shots from a controller, each as (unit, east, north)


def pattern(value):
    """The 64-bit pattern of a float; a number that is a pattern already, such as a NaN's, stays."""
    return value if isinstance(value, int) else struct.unpack(">Q", struct.pack(">d", value))[0]


def stepped(value, steps):
    """The float that many floats farther from 0."""
    return struct.unpack(">d", struct.pack(">Q", pattern(value) + steps))[0]


def runs(shots):
    """Their units, and their values as patterns."""
    return [unit for unit, *_ in shots], [pattern(value) for _, *position in shots for value in position]


def take_runs_case(shots, edition=1):
    case("take_runs", edition, *runs(shots))


def take_case(shots, behind=(), edition=1):
    """The same as ten shots and a count, with other shots behind those that count."""
    case("take", edition, *runs([*shots, *behind]), len(shots))


def either_case(shots, *editions):
    """One of the two calls, in edition 1 or in each of these."""
    call = rng.choice([take_runs_case, take_case])
    for edition in editions or [1]:
        call(shots, edition=edition)


def both_cases(shots, edition=1):
    take_runs_case(shots, edition)
    take_case(shots, edition=edition)


def in_units(positions, units=(METRES,)):
    """The positions in these units, over and over."""
    return [(unit, *position) for position, unit in zip(positions, itertools.cycle(units))]


def factors(unit, edition):
    """What a value is multiplied by, and then divided by."""
    return (1000, 1) if unit == METRES else EDITIONS[edition]


def scaled(unit, value, edition=1):
    """What is made of a value before it is made whole."""
    factor, divisor = factors(unit, edition)
    return value * factor / divisor


def source(unit, millimetres, edition=1):
    """A positive float that is scaled to this number, or as near to it as any."""
    factor, divisor = factors(unit, edition)
    near = [stepped(millimetres * divisor / factor, k) for k in range(-8, 9)]
    return min(near, key=lambda value: abs(scaled(unit, value, edition) - millimetres))


def greatest(holds):
    """The greatest float for which this holds, where it holds from 0 up to there and no farther."""
    low, high = 0, pattern(math.inf)
    while high - low > 1:
        middle = (low + high) // 2
        low, high = (middle, high) if holds(stepped(0.0, middle)) else (low, middle)
    return stepped(0.0, low)


def signed(values):
    """Each with any sign."""
    return [rng.choice([-1, 1]) * value for value in values]


def in_pairs(values):
    return list(zip(values[::2], values[1::2]))


def contested(unit, value, edition=1):
    """Whether other ways to work it out, in another order or rounded once alone, come to another whole number."""
    factor, divisor = factors(unit, edition)
    over, under = value.as_integer_ratio()
    others = [round(value * (factor / divisor)), round(value / divisor * factor), round(value / (divisor / factor))]
    others.append((2 * factor * over + divisor * under) // (2 * divisor * under))
    return any(other != round(scaled(unit, value, edition)) for other in others)


def told_apart(unit, value, edition):
    """Whether another edition comes to another whole number."""
    return any(round(scaled(unit, value, other)) != round(scaled(unit, value, edition)) for other in EDITIONS)


def near_halves(holds, unit, most, edition=1):
    """Ten shots of floats for which this holds, each next to a half of a millimetre, up to a most."""
    values = []
    while len(values) < 20:
        value = stepped(source(unit, rng.randint(0, most) + 0.5, edition), rng.randint(-2, 2))
        values += [value] if holds(unit, value, edition) else []
    return in_units(in_pairs(signed(values)), [unit])


def last_in_range(unit, edition=1):
    return greatest(lambda value: scaled(unit, value, edition) <= LIMIT + 0.5)


def decimals(n, units):
    """Shots in any of these units, as a controller gives them."""
    size, places = rng.choice([1, 50, 1000]), rng.choice([2, 3, 4, 17])
    reach = {METRES: size, FEET: 3 * size}
    value = lambda unit: round(rng.uniform(-reach[unit], reach[unit]), places)
    return [(unit, value(unit), value(unit)) for unit in rng.choices(units, k=n)]


def close_pair(unit):
    """Four shots, two of them half a millimetre apart or nearly: one in feet, one in this unit."""
    edition, number = rng.choice([*EDITIONS]), rng.randint(1, LIMIT - 10)
    close = stepped(source(FEET, number + 0.5, edition), rng.randint(-2, 2))
    whole = source(unit, number + rng.randrange(2), edition)
    return [(FEET, 0.0, close), (FEET, -1.0, 2.0), (unit, 0.0, whole), (METRES, 3.0, -5.0)]


def lined_up(units):
    """A shot in each of these units, on one line in one of the editions."""
    edition, steps = rng.choice([*EDITIONS]), rng.sample(range(1, 100), 2)
    places = rng.sample(range(1, 10_000), len(units))
    return [(unit, *[source(unit, place * step, edition) for step in steps]) for unit, place in zip(units, places)]


def made_whole(shots, edition):
    return [tuple(round(scaled(unit, value, edition)) for value in position) for unit, *position in shots]


def only_in(edition, make, *arguments):
    """The first shots made that are refused in this edition and in no other."""
    while True:
        shots = make(*arguments)
        if [other for other in EDITIONS if not accepted(made_whole(shots, other))] == [edition]:
            return shots


# Groups of cases


def document_cases():
    remark("document 01: the square with its centre")
    for t in [(0, 1, 2), (0, 2, 1), (0, 2, 4), (4, 1, 0), (3, 3, 1)]:
        case("orientation", SQUARE, *t)
        case("double_area", SQUARE, *t)
    case("cocircuit", SQUARE, 0, 2)
    case("accept", SQUARE)
    case("border", SQUARE)
    case("circuits", SQUARE)
    for z in range(4):
        case("circuit", SQUARE, z)
    for names in ["012 023", "012", "012 023 013", "012 034 234", "", "024", "014 034 124 234", "013 123"]:
        case("test", SQUARE, *words(5, names))
    for names, z in itertools.product(["012 023", "014 034 124 234", "013 123"], range(4)):
        case("flip", SQUARE, *words(5, names), z)
    case("placing", SQUARE)
    remark("document 01: three shots are done at 0 steps with one row")
    case("circuits", TRIANGLE)
    case("placing", TRIANGLE)
    case("start", TRIANGLE, 1, 0, [7, 8], 5, 6)
    case("step", TRIANGLE, [1, 0], 1, 0)
    case("run", TRIANGLE, [1, 0], 1, 0, 0)
    case("run", TRIANGLE, [1, 0], 1, 0, 10)


def run_cases():
    remark("document 01: run cases")
    many = [(x, x * x) for x in range(11)]
    for n in [0, 1, 2, 3, 10, 11]:
        case("accept", many[:n])
    for far in [LIMIT, LIMIT + 1, -LIMIT, -LIMIT - 1]:
        case("accept", [(0, 0), (far, 0), (0, 1)])
        case("accept", [(0, 0), (0, 1), (1, far)])
    first = words(5, "012 023")
    for length in [2, 3, 4, 5, 6, 7]:
        case("run", SQUARE, (first + [99] * 5)[:length], 1, 0, 100)
    full = first + words(5, "014 034 124 234")
    case("step", SQUARE, full, 2, 2)
    case("step", SQUARE, full + [9], 2, 2)
    case("step", SQUARE, full + [9, 9], 2, 2)


def shot_cases():
    remark("shots: number by number over the whole run")
    case("accept", [(1, 1), (1, 1), (3, 0), (LIMIT + 1, 0)])
    case("accept", [(1, 1)] * 4)
    case("accept", [(0, 0), (1, 1), (2, 2), (1, 1)])
    case("accept", [(0, 0), (1, 1), (2, 2)])
    case("accept", [0, 0, 1, 1, 2])
    case("accept", [LIMIT + 1] * 5)
    case("accept", [LIMIT + 1] * 4)
    case("accept", [LIMIT + 1] * 22)
    case("accept", [0] * 64)
    case("accept", [])
    case("accept", [7])
    case("accept", [0] * 21)
    for numbers in [(0, 0, 99), (0, 0, 1), (5, 0, 1), (0, 5, 1), (U64, 0, 1), (0, 2**32, 1), (0, 1, 2**64 - 256)]:
        case("orientation", SQUARE, *numbers)
        case("double_area", SQUARE, *numbers)
    for pair in [(0, 1), (1, 0), (2, 2), (4, 5), (3, 4), (5, 4), (0, U64), (U64, 0), (U64, U64), (0, 256), (2**32, 1)]:
        case("cocircuit", SQUARE, *pair)
    case("cocircuit", [(0, 0)] * 3, 9, 9)
    case("border", GRID33)
    case("border", LATE_START)


def extreme_cases():
    remark("coordinates at the ends of their range and of their type")
    for far in [LOWEST, HIGHEST, LIMIT + 1]:
        case("accept", [(far, far), (far, 0), (0, far)])
        case("orientation", [(far, far), (far, 0), (0, far)], 0, 1, 2)
        case("write_patch", [(0, 0), (0, 1), (far, 1)], [0] * 28)
        case("read_patch", patch_record([(0, 0), (0, 1), (far, 1)]))
    case("accept", [(LOWEST, LOWEST), (HIGHEST, HIGHEST), (LOWEST, HIGHEST), (HIGHEST, LOWEST)])
    case("accept", [(LIMIT, LIMIT), (-LIMIT, -LIMIT), (0, 0)])
    case("accept", [(LIMIT, LIMIT), (-LIMIT, -LIMIT), (0, 1)])
    for t in [(0, 1, 2), (3, 1, 0), (1, 3, 6), (0, 2, 4), (0, 4, 6), (2, 3, 6), (4, 5, 6)]:
        case("double_area", EXTREMES, *t)
        case("orientation", EXTREMES, *t)
    for pair in [(0, 1), (0, 2), (2, 6), (3, 6)]:
        case("cocircuit", EXTREMES, *pair)
    case("border", EXTREMES)
    case("circuits", EXTREMES)
    case("placing", EXTREMES)
    case("write_patch", EXTREMES, [0] * 60)
    case("read_patch", patch_record(EXTREMES))


def orientation_cases():
    remark("orientation: every order of three shots, near, far and on a line")
    for patch, t in [(SQUARE, (1, 2, 4)), (SQUARE, (1, 3, 4)), (EXTREMES, (0, 2, 3)), (EXTREMES, (0, 3, 6)), (EXTREMES, (2, 4, 5)), (LATE_START, (0, 2, 5))]:
        for order in itertools.permutations(t):
            case("orientation", patch, *order)
    remark("orientation: shots that are not all different")
    for t in [(1, 1, 2), (1, 2, 2), (1, 2, 1), (2, 2, 2)]:
        case("orientation", EXTREMES, *t)
        case("double_area", EXTREMES, *t)
    remark("orientation: four shots whose areas balance, around, crosswise, one inside, three on a line")
    for patch, (a, b, c, d) in [(PENTAGON, (0, 1, 2, 3)), (PENTAGON, (4, 2, 1, 0)), (GRID33, (0, 5, 7, 4)), (GRID33, (3, 0, 8, 5)), (OUTLINE, (7, 4, 2, 5)), (LATE_START, (5, 0, 4, 3))]:
        for t in [(a, b, c), (a, c, d), (a, b, d), (b, c, d)]:
            case("orientation", patch, *t)
    remark("orientation: several faults at once")
    for shots in BAD_SHOTS:
        case("orientation", shots, U64, 9, 9)


def side_cases():
    remark("sides: a shot halfway, lines of many shots, in any order of their numbers")
    for patch in [FENCE, TRIANGLE, SQUARE, PENTAGON, GRID23, GRID25, GRID33, OUTLINE, MIDDLE_FIRST]:
        case("border", patch)
        case("border", shuffled(patch))
    remark("sides: shots along the sides of a triangle or a quadrilateral, with some inside, upright, level and slanted")
    for n, corners in itertools.product(range(4, 11), [3, 4]):
        case("border", fenced_patch(n, corners))
    remark("sides: all shots but one on a line")
    for n in range(3, 11):
        x, y = rng.randint(-9, 9), rng.randint(1, 9)
        line = [(x * place, y * place) for place in rng.sample(range(-20, 21), n - 1)]
        case("border", rng.sample([*line, (x + 1, y)], n))
    remark("sides: random patches with many shots on lines")
    for n, kind in itertools.product(range(4, 11), ["grid", "small"]):
        case("border", random_patch(n, kind))


def circuit_cases():
    remark("circuits: the smallest number is on the plus side, also where it is the middle one")
    for patch in [MIDDLE_FIRST, LATE_START, GRID23, TRIANGLE]:
        count, _ = walk(patch)
        case("circuits", patch)
        for z in [*range(count), count, U64]:
            case("circuit", patch, z)
    for patch in [GRID33, GRID25, EXTREMES]:
        count, _ = walk(patch)
        for z in [0, *rng.sample(range(1, count), 3), count - 1, count]:
            case("circuit", patch, z)


def list_cases():
    remark("lists: each two triples of the square with its centre")
    for chosen in itertools.combinations(triples(5), 2):
        case("test", SQUARE, *words(5, chosen))
    remark("lists: bits past the last rank")
    low, high = words(5, "012 023")
    for bit in [10, 11, 63]:
        case("test", SQUARE, low | 1 << bit, high)
        case("test", SQUARE, 1 << bit, 0)
    for bit in [0, 63]:
        case("test", SQUARE, low, 1 << bit)
        case("test", SQUARE, 0, 1 << bit)
    case("test", SQUARE, U64, U64)
    case("test", TRIANGLE, 1, 0)
    case("test", TRIANGLE, 2, 0)
    case("test", TRIANGLE, 3, 0)
    for patch in [GRID33, GRID25]:
        count = len(triples(len(patch)))
        surface = table(len(patch), [walk(patch)[1][0]])
        for bit in [count - 65, count - 64, 63]:
            case("test", patch, surface[0], surface[1] | 1 << bit)
    case("test", [(x, x * x) for x in range(8)], 1 << 55, 0)
    case("test", [(x, x * x) for x in range(8)], 1 << 56, 0)


def changed_surface_cases():
    remark("lists: surfaces, and the same with one triple more, fewer or exchanged")
    patches = [GRID23, GRID33, GRID25, LATE_START, EXTREMES]
    patches += [random_patch(n, kind) for n, kind in zip(range(4, 11), itertools.cycle(["wide", "small"]))]
    for patch in patches:
        n, surface = len(patch), rng.choice(walk(patch)[1])
        others = [t for t in solid(patch) if t not in surface]
        fewer = rng.sample(surface, len(surface) - 1)
        case("test", patch, *words(n, surface))
        case("test", patch, *words(n, surface + [rng.choice(others)]))
        case("test", patch, *words(n, fewer))
        case("test", patch, *words(n, fewer + [rng.choice(others)]))


def folded_cases():
    remark("lists: areas that add up to the outline's")
    for patch in [SQUARE, GRID23, LATE_START, MIDDLE_FIRST, random_patch(6, "small"), GRID33]:
        area = lambda surface: sum(abs(turn(patch, *t)) for t in surface)
        _, surfaces = walk(patch)
        outline, found = area(surfaces[0]), 0
        while found < 4:
            chosen = rng.sample(solid(patch), rng.randint(2, min(6, len(solid(patch)))))
            if area(chosen) == outline:
                found += 1
                case("test", patch, *words(len(patch), chosen))


def placing_cases():
    remark("placing: shots on the line of 0 and 1 come after the first triple; a shot that sees no edge is unused")
    for patch in [LATE_START, MIDDLE_FIRST, GRID23, GRID33, GRID25]:
        case("placing", patch)
        case("placing", shuffled(patch))
    for n, kind in itertools.product(range(5, 11), ["grid", "small"]):
        case("placing", random_patch(n, kind))


def flip_cases():
    remark("flips: each circuit of a surface")
    for patch in [MIDDLE_FIRST, LATE_START, GRID23, PENTAGON]:
        count, surfaces = walk(patch)
        for surface in rng.sample(surfaces, 2):
            for z in range(count):
                case("flip", patch, *words(len(patch), surface), z)
    remark("flips: some circuits of larger patches, and numbers that are no circuit")
    for patch in [GRID33, GRID25, random_patch(10, "small"), random_patch(9, "wide")]:
        count, surfaces = walk(patch)
        surface = rng.choice(surfaces)
        for z in [*rng.sample(range(count), 6), count]:
            case("flip", patch, *words(len(patch), surface), z)
    for z in [0, 1, U64]:
        case("flip", TRIANGLE, 1, 0, z)
    for z in [2**32, 2**63, U64]:
        case("flip", SQUARE, *words(5, "012 023"), z)


def random_patch_cases():
    remark("random patches of 3 to 10 shots")
    for n, kind in zip(range(3, 11), itertools.cycle(["grid", "wide", "small"])):
        patch = random_patch(n, kind)
        case("border", patch)
        case("circuits", patch)
        case("cocircuit", patch, *sorted(rng.sample(range(n), 2)))
        case("orientation", patch, *rng.sample(range(n), 3))
        case("double_area", patch, *rng.sample(range(n), 3))
        case("circuit", patch, rng.randrange(2 * n))
        case("write_patch", patch, lent_bytes(4 + 8 * n))
        case("read_patch", patch_record(patch))


def refused_shot_cases():
    remark("each call over refused shots, with nothing else wrong and then with as much else wrong as there can be")
    good, bad = words(5, "012 023"), [U64, U64]
    for shots in BAD_SHOTS:
        case("border", shots)
        case("circuits", shots)
        case("placing", shots)
        case("orientation", shots, 0, 1, 2)
        case("double_area", shots, 0, 1, 99)
        case("cocircuit", shots, 9, 9)
        case("circuit", shots, U64)
        case("test", shots, *bad)
        case("flip", shots, *bad, U64)
        case("start", shots, *good, [5, 6, 7], 8, 9)
        case("start", shots, *bad, [], 0, 9)
        case("step", shots, [1], 0, U64)
        case("run", shots, [*good, 0, 0], 1, 0, 5)
        case("run", shots, [1], 0, U64, 0)
        case("write_patch", shots, [9] * 60)
        case("write_patch", shots, [])
        case("write_surface", shots, *bad, [3] * 3)
        case("read_surface", shots, [0, 0])


def refused_list_cases():
    remark("each call over a refused list, also with a circuit number too high and with no room")
    lists = [words(5, names) for names in ["024", "", "012 023 013", "012"]]
    lists += [[1 << 10, 0], [words(5, "012 013")[0], 1], words(5, "024 012 013 023")]
    for low, high in lists:
        case("test", SQUARE, low, high)
        case("flip", SQUARE, low, high, 3)
        case("start", SQUARE, low, high, [5, 6, 7, 8], 9, 10)
        case("start", SQUARE, low, high, [5], 9, 10)
        case("write_surface", SQUARE, low, high, [7] * 3)
        case("step", SQUARE, [low, high, 5, 6], 1, 1)
        case("step", SQUARE, [low, high], 1, 3)
        case("run", SQUARE, [low, high, 5, 6], 1, 0, U64)


def start_cases():
    remark("start: what the record held does not matter; room for one row is enough")
    first = words(5, "012 023")
    for length in range(5):
        case("start", SQUARE, *first, [11, 12, 13, 14][:length], 0, 0)
        case("start", SQUARE, *first, [U64] * length, U64, U64)
    for patch in [TRIANGLE, GRID33, GRID25, random_patch(10, "wide")]:
        surface = rng.choice(walk(patch)[1])
        case("start", patch, *words(len(patch), surface), [4, 5, 6], 70_000, 3)


def walk_record_cases():
    remark("walk records: rows and step number are anything; 15 comes before done")
    rows = table(5, walk(SQUARE)[1])
    numbers = [(0, 0), (0, 1), (1, 3), (1, 4), (2, 6), (2, 7), (3, 8), (3, 9), (3, 10), (4, 12), (1, U64)]
    numbers += [(U64, 0), (U64, U64), (0, U64), (2**63, 2**63), (2**32 + 1, 0), (65_536, 0)]
    numbers += [(6148914691236517206, 2), (12297829382473034411, 1), (2**64 - 65_535, 3), (3, 2**32)]
    for in_use, s in numbers:
        case("step", SQUARE, rows, in_use, s)
        case("run", SQUARE, rows, in_use, s, s % 3)
    for length, in_use in [(0, 1), (1, 1), (2, 1), (2, 2), (3, 2), (4, 2), (5, 2), (5, 3)]:
        case("step", SQUARE, rows[:length], in_use, 0)
    remark("walk records: with no circuits only step 0 is possible, and the rows may hold anything")
    lent = [3, 4, U64, U64, U64]
    for length, in_use, s in [(0, 0, 0), (2, 1, 0), (2, 1, 1), (2, 1, U64), (2, 0, 0), (5, 2, 0)]:
        case("step", TRIANGLE, lent[:length], in_use, s)
        case("run", TRIANGLE, lent[:length], in_use, s, 0)
        case("run", TRIANGLE, lent[:length], in_use, s, U64)


def table_cases():
    remark("tables: only row s div C is tested, the others are compared as words")
    rows = table(5, walk(SQUARE)[1])
    for bad in [[0, 0], words(5, "012"), words(5, "012 013"), [rows[0], 1]]:
        for at in range(3):
            lent = rows[: 2 * at] + bad + rows[2 * at + 2 :] + [5, 5]
            for s in [2, 5]:
                case("step", SQUARE, lent, 3, s)
            case("run", SQUARE, lent, 3, 0, U64)
    remark("tables: a row twice, rows beyond those in use, a full table over known results")
    case("run", SQUARE, rows[:2] * 4, 3, 0, U64)
    case("run", SQUARE, rows[:2] * 4, 4, 0, U64)
    case("run", SQUARE, rows, 1, 0, U64)
    case("run", SQUARE, rows[:2] + rows[4:] + rows[2:4], 1, 0, U64)
    case("run", SQUARE, rows[:2] + rows[4:] + rows[2:4], 2, 0, U64)
    case("run", SQUARE, rows[:2] + [rows[3], rows[2]] + [0, 0], 2, 0, U64)
    case("run", SQUARE, rows, 3, 0, U64)
    case("run", SQUARE, rows[:2] + [rows[2], 1] + rows[4:], 3, 0, 3)


def random_table_cases():
    remark("tables: some surfaces of a patch in any order, any step number")
    patches = [PENTAGON, GRID23, LATE_START, GRID33, GRID25]
    patches += [random_patch(n, kind) for n in [6, 8, 9, 10] for kind in ["small", "wide"]]
    for patch in patches:
        count, surfaces = walk(patch)
        for room in [0, 3]:
            rows = rng.choices(surfaces, k=rng.randint(1, 8))
            lent = table(len(patch), rows) + [rng.getrandbits(64) for _ in range(room)]
            s = rng.randint(0, len(rows) * count)
            case("run", patch, lent, len(rows), s, rng.randint(1, 2 * count))
        case("step", patch, lent, len(rows), s)


def run_length_cases():
    remark("runs: no step, one, exactly enough, one more, and as many as there are numbers")
    for patch in [SQUARE, MIDDLE_FIRST, PENTAGON, LATE_START, GRID23]:
        count, surfaces = walk(patch)
        steps, first = len(surfaces) * count, words(len(patch), surfaces[0])
        lent = first + [rng.getrandbits(64) for _ in range(2 * len(surfaces) - 1)]
        for b in [0, 1, steps - 1, steps, steps + 1, U64]:
            case("run", patch, lent, 1, 0, b)
        case("run", patch, lent[:-1], 1, 0, U64)
        case("run", patch, lent[:-2], 1, 0, U64)
        case("run", patch, table(len(patch), surfaces), len(surfaces), steps, 0)
        case("run", patch, table(len(patch), surfaces), len(surfaces), steps, 1)
    bad = words(5, "012")
    case("run", SQUARE, bad, 1, 0, 0)
    case("run", SQUARE, words(5, "012 023") + bad, 2, 0, U64)
    remark("runs: nine and ten shots, until the table is full")
    for patch in [GRID33, GRID25, random_patch(10, "wide"), random_patch(10, "small"), random_patch(9, "grid")]:
        first = words(len(patch), walk(patch)[1][0])
        case("run", patch, first + [7] * 21, 1, 0, 3000)
        case("run", patch, first + [7] * 21, 1, 0, 40)


def capacity_cases():
    remark("tables at the bound of 65,535 rows")
    placing, star, other = (words(5, names) for names in ["012 023", "014 034 124 234", "013 123"])
    for length in [131_069, 131_070, 131_071, 131_072]:
        lent = ([0] * 131_066 + placing + placing + [6] * 2)[:length]
        for in_use in [65_534, 65_535, 65_536]:
            case("step", SQUARE, lent, in_use, 3 * 65_533 + 2)
        case("run", SQUARE, lent, 65_534, 3 * 65_533 + 1, 3)
        case("step", SQUARE, lent, 65_535, 3 * 65_535)
        case("start", SQUARE, *star, lent, 1, 1)
    known = placing + star + other + [0] * 131_066
    for length in [131_070, 131_072]:
        case("run", SQUARE, known[:length], 65_535, 0, 9)
        case("run", SQUARE, known[:length], 65_535, 0, 10)
    for in_use in [65_535, 65_536, 65_537]:
        case("step", TRIANGLE, [3] * 131_074, in_use, 0)


def patch_record_cases():
    remark("patch records: each byte changed, each truncation, bytes after the end")
    record = patch_record([(0, 0), (3, -1), (1, 2)])
    for i, byte in enumerate(record):
        case("read_patch", record[:i] + [(byte + rng.randint(1, 255)) % 256] + record[i + 1 :])
        case("read_patch", record[:i])
    for extra in [[0], [1], [0] * 8, [255] * 65]:
        case("read_patch", record + extra)
    remark("patch records: fine points of the order")
    square = patch_record(SQUARE)
    for n in [0, 2, 3, 4, 6, 10, 11, 50, 255]:
        case("read_patch", square[:3] + [n] + square[4:])
        case("read_patch", square[:2] + [rng.choice([1, 2]), n] + [127] * 40)
    case("read_patch", [255] + square[1:2] + [2, 50] + square[4:])
    for short in [[], [0], [0, 0], [0, 1], [0, 1, 9], [0, 1, 1]]:
        case("read_patch", short)
    for short in [[0, 2, 1, 3], [0, 2, 9, 3], [0, 2, 1, 0], [0, 2, 1, 11], [1, 2, 1, 3]]:
        case("read_patch", short)
    for shots in BAD_SHOTS[2:]:
        case("read_patch", patch_record(list(zip(shots[::2], shots[1::2]))))
    case("read_patch", patch_record([(x, x * x) for x in range(11)]))
    case("read_patch", patch_record([(0, 0), (5, 1)]))
    remark("patch records: long ones")
    for version in [1, 2]:
        case("read_patch", [7, 250, version, 255] + [0] * 2040)
        case("read_patch", [255, 255, version, 5] + [0] * 65_533)
        case("read_patch", [255, 255, version, 5] + [0] * 65_534)
        case("read_patch", [0, 42, version, 5] + [0] * 65_576)
        case("read_patch", [0, 0, version, 5] + [0] * 65_534)
    case("read_patch", [255, 255, 1, 200] + [0] * 65_533)


def surface_record_cases():
    remark("surface records: each byte changed, each truncation, bytes after the end")
    record = surface_record(5, [(0, 1, 4), (0, 3, 4), (1, 2, 4), (2, 3, 4)])
    case("read_surface", SQUARE, record)
    for i, byte in enumerate(record):
        case("read_surface", SQUARE, record[:i] + [(byte + 1) % 256] + record[i + 1 :])
        case("read_surface", SQUARE, record[:i] + [(byte - 1) % 256] + record[i + 1 :])
        case("read_surface", SQUARE, record[:i])
    for extra in [[0], [2, 3, 4], [3, 4, 5], [255] * 65]:
        case("read_surface", SQUARE, record + extra)
    remark("surface records: fine points of the order")
    lists = ["012 023", "023 012", "012 012 023", "012 012", "021 023", "012 024", "024", "", "012", "012 013 023"]
    lists += ["012 034 234", "015 012", "012 023 999", "102 023", "112 023", "013 123", "012 123", "912"]
    for names in lists:
        surface = [tuple(map(int, name)) for name in names.split()]
        case("read_surface", SQUARE, surface_record(5, surface))
    for n in [0, 4, 6, 255]:
        case("read_surface", SQUARE, surface_record(n, [(0, 1, 2), (0, 0, 9)]))
    for short in [[], [0], [0, 0], [0, 1, 1], [0, 2, 1, 5]]:
        case("read_surface", SQUARE, short)
    for short in [[0, 3, 1, 5, 0], [0, 3, 1, 4, 0], [0, 3, 2, 4, 9], [0, 3, 1, 5, 9], [0, 3, 1, 4, 9]]:
        case("read_surface", SQUARE, short)
    case("read_surface", SQUARE, [0, 4, 1, 5, 0, 0])
    case("read_surface", SQUARE, [3, 0, 1, 5, 255] + [0] * 765)
    case("read_surface", SQUARE, [255, 255, 1, 5, 0] + [0] * 65_532)
    case("read_surface", SQUARE, [255, 255, 1, 5, 0] + [0] * 65_533)
    for patch in [GRID33, GRID25, random_patch(10, "wide"), random_patch(8, "small")]:
        n, surfaces = len(patch), walk(patch)[1]
        for surface in rng.sample(surfaces, 2):
            case("read_surface", patch, surface_record(n, surface))
            case("read_surface", patch, surface_record(n, surface[:-1]))
            case("read_surface", patch, surface_record(n, surface[::-1]))


def buffer_cases():
    remark("writers: a buffer exactly long enough, one short, longer, empty")
    for patch in [TRIANGLE, SQUARE, [(x, x * x - LIMIT) for x in range(10)]]:
        size = 4 + 8 * len(patch)
        for length in [size, size - 1, size + 9, 3, 0]:
            case("write_patch", patch, lent_bytes(length))
    for patch in [TRIANGLE, SQUARE, GRID33, GRID25]:
        surface = rng.choice(walk(patch)[1])
        size = 5 + 3 * len(surface)
        for length in [size, size - 1, size + 9, 4, 0]:
            case("write_surface", patch, *words(len(patch), surface), lent_bytes(length))


def result_cases():
    remark("results: placing in any order, with shots on the lines of edges that are there already")
    for patch in [SQUARE, GRID23, OUTLINE, GRID33]:
        for _ in range(6):
            case("placing", shuffled(patch))
    remark("results: flips along three on a line, with triangles on both sides of it or on one")
    for patch in [GRID23, LATE_START, OUTLINE]:
        n, surfaces = len(patch), walk(patch)[1]
        threes = len(triples(n)) - len(solid(patch))
        for surface in rng.sample(surfaces, 4):
            for z in range(threes):
                case("flip", patch, *words(n, surface), z)
    remark("results: rows that a run has written, and then a lent row that is bad, or a lent row twice")
    for patch in [SQUARE, PENTAGON, LATE_START, GRID23]:
        n, (count, surfaces) = len(patch), walk(patch)
        first, last = words(n, surfaces[0]), words(n, surfaces[-1])
        for row in [[0, 0], [1, 0], [U64, U64], first]:
            case("run", patch, first + row + [0] * 2 * len(surfaces), 2, 0, U64)
        case("run", patch, first + last + [0, 0] + [0] * 2 * len(surfaces), 3, 0, 3 * count)


def rank_cases():
    remark("ranks: surfaces of convex patches that together hold every triple of 3 to 10 shots, written and read")
    for n in range(3, 11):
        patch = [(x, x * x) for x in range(n)]
        surfaces, left = walk(patch)[1], set(triples(n))
        while left:
            surface = max(surfaces, key=lambda s: len(left.intersection(s)))
            left.difference_update(surface)
            case("write_surface", patch, *words(n, surface), [255] * (6 + 3 * len(surface)))
            case("read_surface", patch, surface_record(n, surface))


def chains_case(patch, south_room=3, north_room=2):
    """The chains of a patch, into buffers with so many bytes more than they need."""
    south, north = chain_lengths(patch)
    case("chains", patch, lent_bytes(south + south_room), lent_bytes(north + north_room))


def outline_cases():
    remark("chains: patches in all four quarter turns")
    patches = [TRIANGLE, SQUARE, PENTAGON, GRID23, GRID33, GRID25, OUTLINE, FENCE, MIDDLE_FIRST, LATE_START, EXTREMES]
    for patch, quarters in itertools.product(patches, range(4)):
        chains_case(turned(patch, quarters))
    remark("chains: triangles in every order, with an upright, a level or no such side")
    triangles = [turned([(0, 0), (0, 4), (3, 1)], quarters) for quarters in range(4)]
    for triangle in [*triangles, [(0, 0), (2, -3), (5, 1)], [(0, 0), (2, 3), (5, 1)]]:
        for order in itertools.permutations(triangle):
            chains_case(order)
    remark("chains: ten corners, on both chains or all on one")
    for patch, quarters in itertools.product([DECAGON, PARABOLA], range(4)):
        chains_case(turned(patch, quarters))
        chains_case(shuffled(turned(patch, quarters)))
    for south in range(9):
        between = [(x, x * x - 81) for x in rng.sample(range(-8, 9), 8)]
        chains_case(shuffled([(-9, 0), (9, 0), *between[:south], *turned(between[south:], 2)]))
    remark("chains: one side only, south or north, with shots along it and away from it")
    for n, half_turns in itertools.product(range(3, 11), range(2)):
        away = [(x, x // 3 + rng.randint(1, 9)) for x in rng.sample(range(-8, 9), 6)]
        near = rng.sample([(-6, -2), (-3, -1), (0, 0), (3, 1), (6, 2), *away[1:]], n - 3)
        chains_case(turned(shuffled([(-9, -3), (9, 3), away[0], *near]), 2 * half_turns))
    remark("chains: at the ends of the range, with shots along the sides, or close to one line")
    far = [(x, y) for x in [-LIMIT, 0, LIMIT] for y in [-LIMIT, 0, LIMIT]]
    corner, across = (-LIMIT, -LIMIT), (LIMIT, LIMIT)
    close = [corner, across, (1, 1), (-1, -1)]
    for patch in [far, [corner, across, (0, 1)], [*close, (0, 1)], [*close, (1, 0)], [*close, (0, 1), (1, 0), (0, 0)]]:
        for quarters in range(4):
            chains_case(shuffled(turned(patch, quarters)))
    chains_case([corner, (LIMIT, LIMIT - 1), (0, 0), (1, 1), (0, -1)])
    chains_case([corner, (LIMIT - 1, LIMIT), (0, 0), (-1, -1), (-1, 0)])


def random_outline_cases():
    remark("chains: shots along the sides of a triangle or a quadrilateral, upright, level and slanted")
    for n, corners in itertools.product(range(4, 11), [3, 4]):
        chains_case(turned(fenced_patch(n, corners), n % 4))
    for quarters in range(4):
        chains_case(turned(fenced_patch(10, 4), quarters))
        chains_case(shuffled(turned([(0, y) for y in range(4)] + [(6, y) for y in range(-3, 3)], quarters)))
    remark("chains: all shots but one on a line")
    for (x, y), n in itertools.product([(0, 1), (1, 0), (2, 3), (3, -2)], [4, 10]):
        line = [(x * place, y * place) for place in rng.sample(range(-20, 21), n - 1)]
        for apart in [(1, 1), (-1, -1)]:
            chains_case(shuffled([*line, apart]))
    remark("chains: random patches")
    for n, kind in itertools.product(range(3, 11), ["grid", "small", "wide"]):
        for _ in range(2):
            chains_case(random_patch(n, kind), rng.randrange(4), rng.randrange(4))


def outline_buffer_cases():
    remark("chains: buffers one byte short, exactly long enough, longer, empty, and of hundreds of bytes")
    for patch in [TRIANGLE, FENCE, GRID33, shuffled(DECAGON), PARABOLA, turned(PARABOLA, 2)]:
        for rooms in itertools.product([-1, 0, 1], repeat=2):
            chains_case(patch, *rooms)
        for lengths in [(0, 0), (0, 10), (10, 0), (1, 10), (10, 1)]:
            case("chains", patch, *map(lent_bytes, lengths))
    for patch, lengths in zip([SQUARE, GRID25, DECAGON], [(256, 257), (512, 300), (258, 256)]):
        case("chains", patch, *map(lent_bytes, lengths))
    case("chains", SQUARE, lent_bytes(300), lent_bytes(2))
    case("chains", SQUARE, lent_bytes(2), lent_bytes(300))
    remark("chains: shots are refused before a short buffer")
    for shots in [*BAD_SHOTS, [], [(x, x * x) for x in range(11)]]:
        for lengths in [(12, 11), (0, 0), (12, 0), (0, 11)]:
            case("chains", shots, *map(lent_bytes, lengths))


def part_cases():
    remark("parts: nothing, some, all of a buffer, one byte more, far more; the other length as well")
    numbers = [(0, 0), (1, 3), (5, 3), (6, 4), (7, 4), (6, 5), (7, 5), (4, 6), (7, 0), (0, 5), (U64, 4), (6, U64)]
    numbers += [(U64, U64), (2**63, 2**63), (2**32, 2**32), (2**32 + 3, 2**32 + 3), (259, 258), (0, U64), (U64, 0)]
    for south, north in [(lent_bytes(6), lent_bytes(4)), (lent_bytes(4), lent_bytes(6))]:
        for lengths in numbers:
            case("south_part", south, north, *lengths)
            case("north_part", south, north, *lengths)
    remark("parts: empty buffers, buffers of one byte, and of hundreds")
    for sizes in [(0, 0), (0, 3), (3, 0), (1, 1), (258, 256)]:
        south, north = map(lent_bytes, sizes)
        for lengths in sorted({(0, 0), (1, 1), (3, 3), sizes, sizes[::-1], (256, 256), (259, 257), (U64, U64)}):
            case("south_part", south, north, *lengths)
            case("north_part", south, north, *lengths)


def intake_cases():
    remark("intake: patches in metres")
    for patch in [TRIANGLE, SQUARE, PENTAGON, EXTREMES]:
        both_cases(in_units([(x / 1000, y / 1000) for x, y in patch]))
    remark("intake: a field book in metres, in feet and in both, with several bytes for feet")
    for units in [[METRES], [FEET], [METRES, FEET], [2, METRES, 255, FEET, 128]]:
        either_case(in_units(BOOK[:5], units))
        both_cases(in_units(BOOK, units))
    remark("intake: 3 to 10 shots of the ten")
    for n in range(3, 11):
        shots = in_units(shuffled(BOOK), [FEET, METRES, 7])
        take_case(shots[:n], shots[n:])


def halves_in(units, edition=1):
    for unit, low, steps in itertools.product(units, [0, 1000, LIMIT - 20], [-1, 0, 1]):
        values = [stepped(source(unit, low + i + 0.5, edition), steps) for i in range(20)]
        either_case(in_units(in_pairs(signed(values)), [unit]), edition)


def contested_in(units, edition=1):
    for unit, most in itertools.product(units, [50, LIMIT // 7, LIMIT - 1]):
        either_case(near_halves(contested, unit, most, edition), edition)


def tiny_in(units, edition=1):
    tiny = [0.0, -0.0, SMALLEST, LEAST_NORMAL - SMALLEST, LEAST_NORMAL, 1e-300, 1e-20, 0.0001]
    for unit, value in itertools.product(units, tiny):
        either_case(in_units([(value, -value), (1.0, value), (-value, -1.0)], [unit]), edition)


def half_cases():
    remark("intake: halves, and the floats before and after them")
    halves_in([METRES, FEET])
    for low in [0, 500, 15_980]:
        either_case(in_units(in_pairs(signed([(low + i) / 16 for i in range(1, 21)]))))
    remark("intake: halves as decimals, which are not quite halves")
    for low in [0, 20, 1000, 32_767, 654_321]:
        either_case(in_units(in_pairs(signed([(2 * (low + i) + 1) / 2000 for i in range(20)]))))
    remark("intake: floats that another way of working them out takes to another number")
    contested_in([METRES, FEET])
    remark("intake: both zeros, and floats that are next to nothing")
    tiny_in([METRES, FEET])


def edges_in(units, edition=1):
    for unit, sign, swap in itertools.product(units, [1, -1], [1, -1]):
        last = last_in_range(unit, edition)
        for value in [last, stepped(last, 1)]:
            either_case(in_units([(0.0, 0.0), (1.0, 1.0), (sign * value, 0.5)[::swap]], [unit]), edition)


def far_cases():
    remark("intake: the last floats in the range of coordinates, and the first out of it")
    edges_in([METRES, FEET])
    remark("intake: far out, also where fewer bits would bring it back")
    far = [LIMIT + 1, 2**31 - 1, 2**31, 2**32, 2**32 + 5, 2**48 + 3, 2**52 + 1, 2**53, 2**63, 2**64, 2**64 + 2**12]
    for millimetres in [*far, 1e30]:
        value = rng.choice([-1, 1]) * source(METRES, millimetres)
        either_case(in_units([(0.0, 0.0), (value, 0.0), (0.0, 1.0)]))


def not_finite_in(units, edition=1):
    for unit, value in itertools.product(units, [math.inf, -math.inf, *NANS]):
        shots = in_units(BOOK[: rng.choice([3, 3, 4])], [unit])
        shots[rng.randrange(len(shots))] = (unit, *rng.sample([value, 0.5], 2))
        either_case(shots, edition)


def last_finite_in(units, edition=1):
    for unit in units:
        last = greatest(lambda value: math.isfinite(scaled(unit, value, edition)))
        for value in [last, stepped(last, 1), -last, -stepped(last, 1)]:
            either_case(in_units([(0.0, 0.0), (1.0, 1.0), rng.sample([value, 0.5], 2)], [unit]), edition)


def huge_in(units, huge, *editions):
    for unit, value in itertools.product(units, huge):
        either_case(in_units([(0.0, 0.0), (value, 1.0), (1.0, 0.0)], [unit]), *editions)


def faults_in(units, edition=1):
    nan, far = NANS[0], 5000.0
    for positions in [
        [(0.0, 0.0), (far, nan), (1.0, 0.0)],
        [(0.0, 0.0), (nan, far), (1.0, 0.0)],
        [(0.0, 0.0), (far, 1.0), (1.0, math.inf)],
        [(0.0, 0.0), (1.0, far), (nan, nan)],
        [(0.0, 0.0), (-math.inf, 1.0), (far, 1.0)],
        [(far, far), (far, nan), (nan, far)],
        [(nan, nan), (nan, nan), (nan, nan)],
        [(far, far), (far, far), (far, far)],
        [(1.0, 1.0), (1.0, 1.0), (2.0, 2.0), (2.0, nan)],
        [(1.0, 1.0), (1.0, 1.0), (2.0, 2.0), (2.0, -far)],
        [(0.0, 0.0), (1.0, 1.0), (2.0, 2.0), (LARGEST, 3.0)],
        [(0.0, 0.0), (1e301, 1.0), (LARGEST, 1.0)],
        [(0.0, 0.0), (1.0, 1.0), (1e301, LARGEST)],
    ]:
        either_case(in_units(positions, [rng.choice(units)]), edition)


def not_finite_cases():
    remark("intake: infinities and NaNs")
    not_finite_in([METRES, FEET])
    remark("intake: the last floats with finite answers, and the first without")
    last_finite_in([METRES, FEET])
    remark("intake: huge floats; a product may be too large although the quotient would not be")
    huge_in([METRES, FEET], [1e302, 1.5e302, 1e303, LARGEST, -LARGEST])
    remark("intake: several faults, in one shot and in several")
    faults_in([METRES, FEET])
    nan, far = NANS[0], 5000.0
    for east in [1000.0005, -1000.001]:
        either_case(in_units([(0.0, 0.0), (east, 1.0), (nan, 1.0)]))
    remark("intake: shots behind those that count are not looked at")
    behind = [(nan, nan), (far, 0.0), (math.inf, 1.0), BOOK[0], (0.0, LARGEST), (far, nan), (-math.inf, far)]
    for n, position in zip(range(3, 10), behind):
        take_case(in_units(BOOK[:n], [METRES, FEET]), in_units([position] * (10 - n), [FEET, METRES]))


def intake_refusal_cases():
    remark("intake: 1, by the number of shots and by the lengths of the runs")
    for n in [0, 1, 2, 11, 12, 32]:
        both_cases(in_units([*BOOK, *BOOK, *BOOK, *BOOK][:n], [METRES, FEET]))
    for n in [2, 11]:
        both_cases(in_units([(NANS[0], LARGEST)] * n))
    units, values = runs(in_units(BOOK))
    for sizes in [(3, 0), (3, 3), (3, 5), (3, 7), (3, 8), (4, 6), (2, 6), (0, 6), (0, 1), (10, 19), (9, 20), (11, 20)]:
        case("take_runs", 1, (units + [FEET])[: sizes[0]], values[: sizes[1]])
    for size in [256 + 3, 65_536 + 3, 65_600]:
        case("take_runs", 1, [METRES] * size, values[:6])
    case("take_runs", 1, [METRES] * 3, [NANS[0]] * 5)
    for count in [0, 2, 11, 256 + 3, 2**32 + 3, 2**63 + 3, U64]:
        case("take", 1, units, values, count)
    remark("intake: arrays that the runs do not fill, or more than fill")
    case("take", 1, [], [], 3)
    case("take", 1, [FEET], values[2:8], 3)
    case("take", 1, [FEET] * 5, values[2:9], 4)
    case("take", 1, [FEET] * 4, values[2:9], 5)
    case("take", 1, [*units, 9, 9], [*values, *NANS], 10)
    case("take", 1, [*units, 9, 9], [*values, *NANS], 11)
    case("take", 1, [METRES] * 65_600, values, 7)
    remark("intake: 3, where shots are equal once they are whole")
    for unit, steps in itertools.product([METRES, FEET], [0, 1, -1]):
        half, whole = stepped(source(unit, 2.5), steps), source(unit, 2.0)
        either_case(in_units([(1.0, half), (0.0, 0.0), (3.0, 1.0), (1.0, whole)], [unit]))
    for metres, feet in [(1.2, 3.937), (304.8006, 1000.0), (0.0, -0.0), (-0.0003, 0.001), (0.305, 1.0), (0.304, 1.0)]:
        either_case([(METRES, metres, 1.2), (FEET, 0.0, 0.0), (FEET, feet, 3.937), (METRES, -1.0, 0.0)])
    remark("intake: 4, where shots are on one line once they are whole")
    either_case(in_units([(0.0, 0.0), (0.5, 0.5), (1.0, 1.0)]))
    for off in [0.0005, 0.0006]:
        either_case(in_units([(0.0, 0.0004), (0.5, -0.0004), (1.0, 0.0), (-0.3, off)]))
    either_case(in_units([(3.937 * i, 39.37 * i) for i in range(5)], [FEET]))
    for north in [3.937 * 6, 3.94 * 6]:
        either_case([(FEET, 0.0, 0.0), (METRES, 1.2, 2.4), (FEET, 3.937 * 3, north), (METRES, -1.2, -2.4)])


def random_intake_cases():
    remark("intake: random shots, mixed, as a controller gives them")
    for n in [*range(3, 11)] * 2:
        either_case(decimals(n, [METRES, FEET]))
    remark("intake: random patterns among others: any, next to nothing, and from 0.00003 to 512")
    for n in [*range(3, 11)] * 2:
        shots = in_units(shuffled(BOOK)[:n], rng.choices([METRES, FEET, rng.randrange(256)], k=n))
        for _ in range(rng.randint(1, 3)):
            low, high = rng.choice([(0, 2**64), (0, 0x3F0 << 52), (0x3F0 << 52, 0x408 << 52)])
            position = [rng.randrange(low, high), rng.randrange(0xBF0 << 52, 0xC08 << 52)]
            shots[rng.randrange(n)] = (rng.choice([METRES, FEET]), *rng.sample(position, 2))
        either_case(shots)


def edition_cases():
    remark("editions: 3,000 feet, and the field book in feet, in both units and in metres, in each edition")
    for edition in EDITIONS:
        both_cases(in_units([(0.0, 0.0), (3000.0, 0.0), (-3000.0, 3000.0), (0.0, -3000.0)], [FEET]), edition)
    for units in [[FEET], [METRES, FEET], [2, METRES, 255, FEET, 128], [METRES]]:
        either_case(in_units(BOOK, units), *EDITIONS)
    remark("editions: random decimals in feet and in both units, in each edition")
    for n, units in itertools.product([3, 5, 8, 10], [[FEET], [METRES, FEET]]):
        either_case(decimals(n, units), *EDITIONS)
    remark("editions: small numbers of feet that each edition takes to another number")
    for most in [9, 900, 90_000]:
        either_case(near_halves(told_apart, FEET, most, rng.choice([*EDITIONS])), *EDITIONS)
    remark("editions: metres that another way of working them out takes to another number, in each edition")
    for most in [50, LIMIT // 7, LIMIT - 1]:
        either_case(near_halves(contested, METRES, most), *EDITIONS)
    remark("edition 2: shots behind those that count are not looked at")
    for n, position in [(3, (NANS[0], 0.0)), (6, BOOK[0]), (9, (LARGEST, 5000.0))]:
        take_case(in_units(BOOK[:n], [FEET, METRES]), in_units([position] * (10 - n), [FEET]), 2)


def edition_half_cases():
    remark("edition 2: halves, and the floats before and after them")
    halves_in([FEET], 2)
    remark("edition 2: exact halves, which are odd multiples of 0.625 feet, and the floats before and after them")
    for low, steps in itertools.product([1, 5201], [-1, 0, 1]):
        values = [stepped((low + 2 * i) * 0.625, steps) for i in range(20)]
        either_case(in_units(in_pairs(signed(values)), [FEET]), 2)
    remark("edition 2: decimals close to halves, which are not quite halves")
    for low, places in [(0, 5), (20, 4), (1000, 4), (32_767, 6), (654_321, 5)]:
        values = [round(source(FEET, low + i + 0.5, 2), places) for i in range(20)]
        either_case(in_units(in_pairs(signed(values)), [FEET]), 2)
    remark("edition 2: floats that another way of working them out takes to another number")
    contested_in([FEET], 2)
    remark("edition 2: both zeros, and floats that are next to nothing")
    tiny_in([FEET], 2)


def edition_far_cases():
    remark("edition 2: the last floats in the range of coordinates, and the first out of it")
    edges_in([FEET], 2)
    remark("editions: in range in edition 2, and out of it in edition 1")
    for value in [stepped(last_in_range(FEET, 1), 1), 3280.84, last_in_range(FEET, 2)]:
        either_case(in_units([(0.0, 0.0), (1.0, 1.0), rng.sample([value, 0.5], 2)], [FEET]), *EDITIONS)
    remark("edition 2: infinities and NaNs")
    not_finite_in([FEET], 2)
    remark("edition 2: the last floats with finite answers, and the first without")
    last_finite_in([FEET], 2)
    remark("edition 2: huge floats; a product may be too large although the quotient would not be")
    huge_in([FEET], [5e304, 6e304, LARGEST, -LARGEST], 2)
    remark("editions: huge floats with a finite product in edition 2 alone")
    huge_in([FEET], [1.5e302, -5.8e304], *EDITIONS)
    remark("edition 2: several faults, in one shot and in several")
    faults_in([FEET], 2)


def one_edition_cases():
    remark("editions: 3 in one of them alone, between feet, and between feet and metres")
    for edition, unit in itertools.product(EDITIONS, [FEET, METRES]):
        either_case(only_in(edition, close_pair, unit), *EDITIONS)
    for metres in [914.4, 914.402]:
        shots = [(METRES, metres, -metres), (FEET, 0.0, 0.0), (FEET, 3000.0, -3000.0), (METRES, 1.0, 0.0)]
        either_case(shots, *EDITIONS)
    remark("editions: 4 in one of them alone, in feet and in both units")
    for edition, units in itertools.product(EDITIONS, [[FEET] * 3, [FEET, METRES, FEET]]):
        either_case(only_in(edition, lined_up, units), *EDITIONS)


def edition_refusal_cases():
    remark("editions: 17, of shots that an edition would accept")
    for edition, unit in zip(NO_EDITIONS, itertools.cycle([FEET, METRES])):
        both_cases(in_units(BOOK[:3], [unit]), edition)
    remark("editions: 17 before every other refusal, and what is refused in edition 2")
    nan, far = NANS[0], 5000.0
    for edition, positions in itertools.product([2, *NO_EDITIONS], [
        [],
        [(0.0, 0.0)] * 11,
        [(0.0, 0.0), (nan, 1.0), (1.0, 0.0)],
        [(0.0, 0.0), (1.0, far), (1.0, 0.0)],
        [(1.0, 1.0), (2.0, 0.0), (1.0, 1.0)],
        [(0.0, 0.0), (1.0, 1.0), (2.0, 2.0)],
    ]):
        either_case(in_units(positions, [rng.choice([METRES, FEET])]), edition)
    units, values = runs(in_units(BOOK[1:4], [FEET]))
    for edition in [2, *NO_EDITIONS]:
        case("take_runs", edition, units, values[:5])
        case("take", edition, units, values, 256 + 3)
    remark("editions: 1 before 16, 2 and 3")
    for edition, n in itertools.product(EDITIONS, [2, 11]):
        both_cases(in_units([(LARGEST, far)] * n, [FEET]), edition)


def main():
    for group in [
        document_cases, run_cases, shot_cases, extreme_cases, circuit_cases, list_cases, changed_surface_cases,
        folded_cases, placing_cases, flip_cases, random_patch_cases, refused_shot_cases, refused_list_cases,
        start_cases, walk_record_cases, table_cases, random_table_cases, run_length_cases, capacity_cases,
        patch_record_cases, surface_record_cases, buffer_cases, result_cases, side_cases, orientation_cases, rank_cases,
        outline_cases, random_outline_cases, outline_buffer_cases, part_cases, intake_cases, half_cases, far_cases,
        not_finite_cases, intake_refusal_cases, random_intake_cases, edition_cases, edition_half_cases,
        edition_far_cases, one_edition_cases, edition_refusal_cases,
    ]:
        group()


if __name__ == "__main__":
    main()
