#!/usr/bin/env python3
"""Writes the example records: python3 examples/make.py FOLDER. Here they can be read; the files beside this one are what it writes."""
import os
import struct
import sys

# ---- the patches, as places in millimetres
SQUARE = [(0, 0), (2, 0), (2, 2), (0, 2), (1, 1)]
# a square with shot 4 halfway along a straight fence: four sides
FENCE = [(0, 0), (2, 0), (2, 2), (0, 2), (1, 0)]
# a pad of 12 m by 9 m, shots 4 and 5 inside it
PAD = [(0, 0), (12000, 0), (12000, 9000), (0, 9000), (3000, 4000), (9000, 5000)]
# the same pad after shots 4 and 5 traded their numbers
TRADED = PAD[:4] + [PAD[5], PAD[4]]
# eight shots around a pond: 132 surfaces
EIGHT = [(1000, 0), (2000, 0), (3000, 1000), (3000, 2000), (2000, 3000), (1000, 3000), (0, 2000), (0, 1000)]
# ten shots over a mound
TEN = [(0, 0), (4100, -350), (8200, 150), (9000, 4300), (6900, 7600), (2400, 7900), (-600, 4200), (3000, 3100), (5600, 4400), (4300, 5900)]

# ---- surfaces, as triples of shots
SQUARE_HALVES = ["012", "023"]
# areas that add up, with shot 4 in the middle of an edge
SQUARE_SPLIT = ["012", "034", "234"]
PAD_LIST = ["014", "034", "125", "145", "235", "345"]


def framed(body):
    return struct.pack(">H", len(body)) + body


def patch(shots, version=1):
    return framed(bytes([version, len(shots)]) + b"".join(struct.pack(">ii", x, y) for x, y in shots))


def surface(n, triples):
    return framed(bytes([1, n, len(triples)]) + bytes(int(digit) for triple in triples for digit in triple))


RECORDS = {
    "square.patch": patch(SQUARE),
    "square.surface": surface(5, SQUARE_HALVES),
    "square-split.surface": surface(5, SQUARE_SPLIT),
    "square-half.surface": surface(5, ["012"]),
    "square-empty.surface": surface(5, []),
    "fence.patch": patch(FENCE),
    "pad.patch": patch(PAD),
    "pad.surface": surface(6, PAD_LIST),
    # the list stayed in the store while the shots traded numbers: the surface folds over itself
    "traded.patch": patch(TRADED),
    "traded.surface": surface(6, PAD_LIST),
    "eight.patch": patch(EIGHT),
    "ten.patch": patch(TEN),
    # damaged in the store
    "cut.patch": patch(PAD)[:-3],
    "version.patch": patch(PAD, version=2),
    "doubled.patch": patch(PAD[:5] + [PAD[4]]),
    "far.patch": patch(PAD[:5] + [(1000001, 5000)]),
    "line.patch": patch([(0, 0), (1, 1), (2, 2), (5, 5)]),
    "two.patch": patch(PAD[:2]),
    "order.surface": surface(6, ["014", "125", "034", "145", "235", "345"]),
    "cut.surface": surface(6, PAD_LIST)[:-1],
}


def main():
    for name, record in RECORDS.items():
        with open(os.path.join(sys.argv[1], name), "wb") as out:
            out.write(record)


main()
