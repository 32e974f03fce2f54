#!/usr/bin/env python3
"""Writes the list that crates/root_run is run on: bit patterns, and the bits of their roots.

The answers come from whole numbers alone and by another way than the library's definition:
the root of the input, counted in smallest values, with hundreds of digits, then rounded to 53.
Each is held to the machine's own square root. README.md says more.
"""
import math
import struct
from pathlib import Path

FRACTION = (1 << 52) - 1
SIGN = 1 << 63
INFINITY = 0x7FF << 52
NAN = 0x7FF8_0000_0000_0000


def root(b):
    """The bits of the correctly rounded root of the number with the bits b."""
    field, digits = b >> 52 & 0x7FF, b & FRACTION
    if b & ~SIGN == 0 or b == INFINITY:
        return b
    if b & SIGN or field == 0x7FF:
        return NAN
    # the input is n smallest values, 2^-1074, so the root is that of n * 2^1074 of them
    n = digits if field == 0 else (digits | 1 << 52) << field - 1
    square = n << 1074
    whole = math.isqrt(square)
    drop = whole.bit_length() - 53
    kept, rest = whole >> drop, whole & (1 << drop) - 1
    half = 1 << drop - 1
    more = whole * whole != square
    if rest > half or rest == half and (more or kept & 1):
        kept += 1
    if kept == 1 << 53:
        kept, drop = kept >> 1, drop + 1
    return (drop << 52) + kept


def machine_root(b):
    """The same by the machine, None where Python raises an error instead."""
    x = struct.unpack("<d", struct.pack("<Q", b))[0]
    if math.isnan(x) or x < 0:
        return None
    return struct.unpack("<Q", struct.pack("<d", math.sqrt(x)))[0]


class Numbers:
    """Numbers that look random and are the same in every run (splitmix64)."""

    def __init__(self, seed):
        self.state = seed

    def next(self, bits=64):
        mask = (1 << 64) - 1
        self.state = self.state + 0x9E3779B97F4A7C15 & mask
        z = self.state
        z = (z ^ z >> 30) * 0xBF58476D1CE4E5B9 & mask
        z = (z ^ z >> 27) * 0x94D049BB133111EB & mask
        return (z ^ z >> 31) >> 64 - bits


def exponents(some):
    """Every exponent of a normal number: its power of two, and one more significand; at each
    place a few with the largest significand or the one above the least."""
    for field in range(1, 2047):
        yield field << 52
        yield field << 52 | some.next(52)
        if field % 8 < 2:
            yield field << 52 | FRACTION
            yield field << 52 | 1


def subnormals(some):
    """Every place of the leading bit: alone, with ones below it, with anything below it."""
    for place in range(52):
        top = 1 << place
        yield top
        yield top | top - 1
        yield top | some.next(52) & top - 1
        yield top + 1


def pattern(n):
    """The bits of n smallest values, of which only the 53 leading digits are not 0."""
    drop = max(n.bit_length() - 53, 0)
    return (drop << 52) + (n >> drop)


def squares(some):
    """Squares of numbers of at most 26 digits, at many exponents, and their neighbours."""
    for _ in range(150):
        k = some.next(26) | 1
        b = pattern(k * k << 2 * (some.next(10) % 1000))
        yield from (b - 1, b, b + 1)


def near_ties(some):
    """Inputs whose root is as near as can be to the middle t/2 of two neighbours, q and q + 1: with
    t = 2q + 1, t*t is 4m + d for a small d. 4m is M * 2^54 or M * 2^55, so t is a root of d modulo
    that power, found digit by digit."""
    for low in (54, 55):
        for d in range(-319, 320, 8):
            t = 1
            for k in range(3, low):
                if (t * t - d) % (1 << k + 1):
                    t += 1 << k - 1
            for c in (s * t + (h << low - 1) for s in (1, -1) for h in range(-8, 8)):
                significand = (c * c - d) >> low
                if 1 << 53 <= c < 1 << 54 and 1 << 52 <= significand < 1 << 53:
                    yield pattern(significand << 2 * (some.next(10) % 1000) + low % 2)


def edges():
    yield from (0x4000_0000_0000_0000, 1, 0x400F_FFFF_FFFF_FFFF)
    for b in (0, 1 << 52, FRACTION, INFINITY, INFINITY - 1, 0x3FF0_0000_0000_0000):
        for near in (b - 2, b - 1, b, b + 1, b + 2):
            if near >= 0:
                yield near
                yield near | SIGN
    for payload in (1, 2, 1 << 50, (1 << 51) - 1, 1 << 51, (1 << 51) + 1, FRACTION):
        yield INFINITY | payload
        yield SIGN | INFINITY | payload


def anything(some):
    for _ in range(600):
        yield some.next(63) % INFINITY
    for _ in range(200):
        yield some.next(64)
    for _ in range(50):
        yield SIGN | some.next(63)
        yield INFINITY | some.next(52)
        yield SIGN | INFINITY | some.next(52)


def main():
    some = Numbers(2024)
    listed = [*edges(), *exponents(some), *subnormals(some), *squares(some), *near_ties(some), *anything(some)]
    patterns = list(dict.fromkeys(listed))
    answers = [root(b) for b in patterns]
    for b, r in zip(patterns, answers):
        by_machine = machine_root(b)
        if by_machine is not None and by_machine != r:
            raise SystemExit(f"{b:016X}: {r:016X} by whole numbers, {by_machine:016X} by the machine")
    out = Path(__file__).resolve().parent.parent.parent / "crates" / "root_run"
    (out / "stdin").write_bytes(struct.pack(f"<{len(patterns)}Q", *patterns))
    (out / "stdout").write_bytes(struct.pack(f"<{len(answers)}Q", *answers))
    print(len(patterns), "patterns")


main()
