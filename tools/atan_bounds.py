#!/usr/bin/env python3
"""The bounds of crates/arith/specs/Laws/Atan*.antt, worked out with fractions, each beside the number that the law has.

First the steps of the proof (units of 2^-256, as the crate `exact` counts); then the law of atan2 itself, with exact sums,
on random and extreme arguments. usage: atan_bounds.py [COUNT [SEED]]"""
import math
import random
import struct
import sys
from fractions import Fraction as F
from math import factorial

UNIT = 1 << 256
W = F(1, 2**52)
PI, HALF_PI = F(math.pi), F(math.pi / 2)


def alternating(first, last):
    return [F((-1) ** (n // 2), factorial(n)) if n >= first and (n - first) % 2 == 0 else F(0) for n in range(last + 1)]


SINE, COSINE = alternating(1, 41), alternating(0, 42)
ARC = [F((-1) ** k, 2 * k + 1) for k in range(12)]


def add(a, b, sign=1):
    n = max(len(a), len(b))
    return [(a[i] if i < len(a) else 0) + sign * (b[i] if i < len(b) else 0) for i in range(n)]


def mul(a, b):
    r = [F(0)] * (len(a) + len(b) - 1)
    for i, x in enumerate(a):
        if x:
            for j, y in enumerate(b):
                r[i + j] += x * y
    return r


def at(cs, e):
    """The polynomial cs at the polynomial e."""
    r = [F(0)]
    for c in reversed(cs):
        r = add([c], mul(r, e))
    return r


def size(p, x):
    """A bound on |p| for magnitudes up to x."""
    return sum(abs(c) * x**k for k, c in enumerate(p))


def growth(p, d, x):
    """A bound on |p(a) - p(b)| for |a|, |b| up to x that differ by d."""
    return d * sum(k * abs(c) * x ** (k - 1) for k, c in enumerate(p) if k)


def off(m):
    """What one operation in doubles is off by, for a result of at most m."""
    return m / 2**53 + F(2, UNIT)


def show(name, value, bound):
    print(f"{name:34} {float(value / W):14.4g} w   bound {float(bound / W):14.4g} w   {'ok' if value <= bound else 'TOO SMALL'}")
    assert value <= bound, name


def steps():
    part = lambda k: F(2**k, UNIT)
    # AtanHalf
    q, i, r = 1 + part(206), F(1, 2) + part(206), F(387, 256)
    show("1 + q q", off(q * q) + off(1 + q * q + off(q * q)), part(205))
    show("1 + r", off(1 + r), part(205))
    n = off(q * i)
    show("q / w", n, part(203))
    show("2 q' + q q'^2 - q", 2 * part(203) + 2 * q * q * i * part(203) + q * part(203) ** 2 + q * i * i * (part(205) * (part(205) + 2 * r) + part(205) + part(205)), part(207))
    q1, q2 = F(1, 2) + part(208), F(1, 4) + part(208)
    show("size of q'", q * i + off(q * i), q1)
    show("size of q''", q1 * i + off(q1 * i), q2)
    # AtanArc
    a = F(17, 64)
    short, short_c = alternating(1, 11), alternating(0, 12)
    sigma, gamma = short[1::2], short_c[0::2]
    z = mul(mul(ARC, ARC), [F(0), F(1)])
    show("arc tangent in sine and cosine", size(add(mul(ARC, at(sigma, z)), at(gamma, z), -1), q2 * q2), part(204))
    show("short sine", size(add(SINE, short, -1)[1:], a), part(201))
    show("short cosine", size(add(COSINE, short_c, -1), a), part(196))
    show("sine from A to a", growth(SINE, part(203), a), part(204))
    show("cosine from A to a", growth(COSINE, part(203), a), part(203))
    e = part(204) + q2 * part(203) + a * part(201) + q2 * part(196) + q2 * part(204)
    show("S(a) - q'' C(a)", e, part(205))
    # AtanDouble
    wide, two, c = F(9, 16), [F(0), F(2)], F(5, 4)
    show("S(2 x) - 2 S C", size(add(at(SINE, two), mul([F(2)], mul(SINE, COSINE)), -1), wide), part(177))
    show("C(2 x) - (C^2 - S^2)", size(add(at(COSINE, two), add(mul(COSINE, COSINE), mul(SINE, SINE), -1), -1), wide), part(177))
    show("C", size(COSINE, wide), c)
    double = lambda q, p, e, r: 2 * part(177) + c * c * r + 2 * e * c + 2 * q * p * c * e + q * e * e
    show("S(2 a) - q' C(2 a)", double(q1, q2, part(205), part(207)), 20 * W)
    show("S(4 a) - q C(4 a)", double(q, q1, 20 * W, part(207)), 96 * W)
    # AtanOctant, AtanTurn
    v, w, u = F(69, 64), F(85, 32), F(93, 16)
    show("4 a", off(4 * a), W)
    show("sine from 4 a to v", growth(SINE, W, v), 2 * W)
    show("cosine from 4 a to v", growth(COSINE, W, v), 2 * W)
    show("S(v) - t C(v)", 2 * W + q * 2 * W + 96 * W + W * 2, part(211))
    show("C(v) - 1", size(add(COSINE, [F(1)], -1), v), F(43, 64))
    quarter, half = [HALF_PI, F(-1)], [PI, F(-1)]
    show("S(PI/2 - v) - C(v)", size(add(at(SINE, quarter), COSINE, -1), v), part(203))
    show("C(PI/2 - v) - S(v)", size(add(at(COSINE, quarter), SINE, -1), v), part(203))
    show("S(PI - w) - S(w)", size(add(at(SINE, half), SINE, -1), w), part(207))
    show("C(PI - w) + C(w)", size(add(at(COSINE, half), COSINE), w), part(207))
    show("PI/2 - v", off(HALF_PI + v), part(205))
    show("PI - w", off(PI + w), 3 * W)
    show("sine after the quarter", growth(SINE, part(205), w), 15 * W)
    show("sine after the half", growth(SINE, 3 * W, u), 504 * W)
    # AtanSeen, AtanNear
    show("off after the quarter", part(211) + 2 * part(208), part(212))
    show("off after the half", part(212) + 2 * part(213), part(215))
    assert part(215) ** 2 <= F(1, 2**80)


def atan2(y, x):
    ay, ax = abs(y), abs(x)
    q = ax / ay if ax < ay else ay / ax
    for _ in range(2):
        q = q / (1.0 + math.sqrt(1.0 + q * q))
    s = float(ARC[11])
    for c in reversed(ARC[:11]):
        s = s * (q * q) + float(c)
    v = s * q * 4.0
    if ax < ay:
        v = math.pi / 2 - v
    if x < 0:
        v = math.pi - v
    return -v if y < 0 else v


def value(p, x):
    r = F(0)
    for c in reversed(p):
        r = c + x * r
    return r


def law(count, seed):
    random.seed(seed)
    some = [0.0, -0.0, 5e-324, -5e-324, 1.7976931348623157e308, -1.7976931348623157e308, 1.0, -1.0, 2.0**-537, -(2.0**-1022)]

    def double():
        x = struct.unpack("<d", struct.pack("<Q", random.randrange(1 << 64)))[0]
        return x if math.isfinite(x) else double()

    worst = F(0)
    for k in range(count):
        x = random.choice([double(), random.choice(some), random.uniform(-1, 1)])
        y = random.choice([double(), random.choice(some), random.uniform(-1, 1), x, -x, x * random.random()])
        if x == 0 and y == 0:
            continue
        v = F(atan2(y, x))
        m = max(abs(F(x)), abs(F(y)))
        a, b = F(x) / m, F(y) / m
        s, c = value(SINE, v), value(COSINE, v)
        across, along = b * c - a * s, a * c + b * s
        assert across * across <= F(1, 2**80) * (a * a + b * b) and along > 0, (y, x)
        worst = max(worst, across * across / (a * a + b * b))
    print(f"{count} arguments, worst 2^{math.log2(worst) / 2:.2f}")


if __name__ == "__main__":
    steps()
    law(int(sys.argv[1]) if len(sys.argv) > 1 else 300, int(sys.argv[2]) if len(sys.argv) > 2 else 1)
