#!/usr/bin/env python3
# The largest differences between the sine and the cosine that tests/accuracy/answers.c gives and the first ten terms of their series, in
# whole numbers as in crates/accuracy/specs/Accuracy.antt. tests/accuracy/run builds what it needs.
import argparse
import math
import random
import struct
import subprocess
import sys

ASKED, PROVED = 40, 51
# a difference is counted in units of 2^-FINE
FINE = 120


def float_of(pattern):
    return struct.unpack("<d", struct.pack("<Q", pattern))[0]


def pattern_of(x):
    return struct.unpack("<Q", struct.pack("<d", x))[0]


def marked():
    """Both ends, both zeros, subnormals, and each point at which the code takes another branch, with the floats on either side of it."""
    places = [0.75, 0.0, 2.0**-1022, 2.0**-27, float_of(0x3FD33333_00000000)]
    patterns = {pattern_of(x) + step for x in places for step in range(-2, 3)} | {1, 2, 3, (1 << 51) + 1}
    for pattern in sorted(p for p in patterns if 0 <= p <= pattern_of(0.75)):
        yield float_of(pattern)
        yield -float_of(pattern)


def arguments(count, seed):
    """The marked ones, then in turn: evenly spread, from 0.5 to 0.75, and of any exponent."""
    draw = random.Random(seed)
    given = list(marked())[:count]
    for i in range(count - len(given)):
        if i % 4 < 2:
            x = draw.uniform(0.0, 0.75)
        elif i % 4 == 2:
            x = draw.uniform(0.5, 0.75)
        else:
            x = float_of(draw.randint(0, pattern_of(0.75)))
        given.append(draw.choice((x, -x)))
    return given


def coefficients(n):
    """n! / k! for k = n, n - 2, .., ten of them, with the signs that they have in the series."""
    return [(-1) ** (9 - i) * (math.factorial(n) // math.factorial(n - 2 * i)) for i in range(10)]


def series(n, coefficient, a, d):
    """The ten terms at a / 2^d, times n! 2^(d n)."""
    total = 0
    for i, c in enumerate(coefficient):
        total = total * a * a + (c << (2 * d * i))
    return total * a if n % 2 else total


def fraction(x):
    above, below = x.as_integer_ratio()
    return above, below.bit_length() - 1


class Function:
    """One of the two, and the largest difference so far."""

    def __init__(self, name, n):
        self.name, self.n, self.coefficient, self.factorial = name, n, coefficients(n), math.factorial(n)
        self.largest, self.at, self.over = -1, None, 0

    def take(self, x, y):
        if not math.isfinite(y):
            self.over += 1
            return
        (a, d), (b, g) = fraction(x), fraction(y)
        places = d * self.n + g
        # |y - sum / (n! 2^(d n))|, times n! 2^places
        difference = abs((b * self.factorial << d * self.n) - (series(self.n, self.coefficient, a, d) << g))
        if difference << PROVED > self.factorial << places:
            self.over += 1
        units = (difference << FINE) // (self.factorial << places)
        if units > self.largest:
            self.largest, self.at = units, x


def size(units):
    return f"2^{math.log2(units) - FINE:.2f}" if units else "0"


def main():
    options = argparse.ArgumentParser()
    options.add_argument("answers")
    options.add_argument("--count", type=int, default=1_000_000)
    options.add_argument("--seed", type=int, default=1)
    given = options.parse_args()
    xs = arguments(given.count, given.seed)
    said = subprocess.run([given.answers], input=struct.pack(f"={len(xs)}d", *xs), stdout=subprocess.PIPE, check=True).stdout
    functions = [Function("sine", 19), Function("cosine", 18)]
    for x, answers in zip(xs, struct.iter_unpack("=2d", said), strict=True):
        for function, y in zip(functions, answers):
            function.take(x, y)
    print(f"{len(xs)} arguments from -0.75 to 0.75, seed {given.seed}")
    print(f"asked for: within 2^-{ASKED}; proved: within 2^-{PROVED}")
    for f in functions:
        print(f"{f.name}: at most {size(f.largest)} from its series, at {f.at.hex()}; {f.over} beyond what is proved")
    return 1 if any(f.over for f in functions) else 0


sys.exit(main())
