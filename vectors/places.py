#!/usr/bin/env python3
"""Where each unit of a byte stream stands, as `decode --explain` tells it behind a refusal.

usage: places.py FILE

A line for each unit, in three parts with `|` between: the text for any fault, what a refused profile adds, and what a refused level adds.
"""

import re
import sys

NAMES = {
    44: "CAVLC 4:4:4 Intra",
    66: "Baseline",
    77: "Main",
    83: "Scalable Baseline",
    86: "Scalable High",
    88: "Extended",
    100: "High",
    110: "High 10",
    118: "Multiview High",
    122: "High 4:2:2",
    128: "Stereo High",
    244: "High 4:4:4 Predictive",
}


def units_of(stream):
    """Gives the place and the bytes of each unit (B.1.1, B.2)."""
    for start in re.finditer(b"\0\0\1", stream):
        end = re.compile(b"\0\0[\0\1]").search(stream, start.end())
        unit = stream[start.end() : end.start()] if end else stream[start.end() :].rstrip(b"\0")
        if unit:
            yield start.end(), unit


def begins_picture(unit):
    """Says whether it is a slice with first_mb_in_slice 0: the first bit of its header is 1."""
    return unit[0] < 128 and unit[0] % 32 in (1, 2, 5) and unit[1:2] >= b"\x80"


def main():
    with open(sys.argv[1], "rb") as file:
        stream = file.read()
    pictures = 0
    for number, (place, unit) in enumerate(units_of(stream)):
        pictures += begins_picture(unit)
        is_in = 1 <= unit[0] % 32 <= 5 and pictures > 0
        side = f"in coded picture {pictures - 1}" if is_in else f"before coded picture {pictures}"
        profile = level = ""
        if unit[0] % 32 == 7 and len(unit) > 1:
            name = f" ({NAMES[unit[1]]})" if unit[1] in NAMES else ""
            profile = f": profile_idc {unit[1]}{name}; 66, 77 and 88 are taken"
        if unit[0] % 32 == 7 and len(unit) > 3:
            level = f": level_idc {unit[3]}"
        print(f"unit {number} begins at byte {place}, {side}|{profile}|{level}")


main()
