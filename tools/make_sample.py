#!/usr/bin/env python3
"""Writes the sample plan: a mast of four sections with a hinge, a ball and a rod.

    tools/make_sample.py plans/sample.plan

The foot is heavy and stands still; the sections above it swing about the hinge, the
upper one bends in its ball, and the antenna head hangs from it by a rod. The answer
beside it (plans/sample.out) is the oracle's:

    oracle/target/release/oracle-pose < plans/sample.plan > plans/sample.out
"""
import struct
import sys

HALF = 0.5 ** 0.5


def doubles(numbers):
    return struct.pack("<%dd" % len(numbers), *numbers)


def body(origin, velocity, spin, mass, centre, inertia):
    """A body that stands straight, with an inertia along its axes."""
    x, y, z = inertia
    rotation = [0, 0, 0, 1]
    matrix = [x, 0, 0, 0, y, 0, 0, 0, z]
    return b"BD" + doubles([*origin, *rotation, *velocity, *spin, mass, *centre, *matrix])


def joint(a, b, kind, frame_a, frame_b, own=()):
    return b"JT" + bytes([a, b, kind]) + doubles([*frame_a, *frame_b, *own])


def main():
    if len(sys.argv) != 2:
        sys.exit(__doc__)
    straight = [0, 0, 0, 1]
    # Turns Z into -Y, along which the hinge lies.
    hinge = [HALF, 0, 0, HALF]
    plan = b"DT" + doubles([1 / 64])
    plan += body([0, 0, 1], [0, 0, 0], [0, 0, 0], 4000, [0, 0, -0.5], [3000, 3000, 900])
    plan += body([0, 0, 4], [0.75, 0, 0], [0, 0.25, 0], 180, [0, 0, 0], [250, 250, 12])
    plan += body([0, 0, 8], [1.5, 0.125, 0], [0.125, 0.25, 0], 120, [0, 0, 0.25], [160, 160, 8])
    plan += body([0.6, 0, 9.2], [1.75, 0.25, 0], [0, 0, 0.5], 30, [0, 0, 0], [4, 5, 3])
    plan += joint(0, 1, 1, [0, 0, 1, *hinge], [0, 0, -2, *hinge])
    plan += joint(1, 2, 0, [0, 0, 2, *straight], [0, 0, -2, *straight])
    # From the upper section's arm to the top of the head: 0.3, 0 and 0.4 apart.
    plan += joint(2, 3, 4, [0.3, 0, 2, *straight], [0, 0, 0.4, *straight], [0.5])
    with open(sys.argv[1], "wb") as file:
        file.write(plan)


if __name__ == "__main__":
    main()
