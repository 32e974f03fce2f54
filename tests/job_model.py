#!/usr/bin/env python3
"""The answer of a job file, worked out from docs/01-scope.md alone: the file here, the calls in oracle/model.py. No code is shared with
the crates.

    tests/job_model.py FILE      writes the answer's bytes to standard output
"""
import os
import struct
import sys

sys.path.insert(0, os.path.join(os.path.dirname(os.path.abspath(__file__)), "..", "oracle"))
import model
from model import Refused, bits, flat, of_bits, pointers

MARKS = {b"SZ": 10, b"EN": 18, b"RH": 14, b"GO": 3}


def read(s):
    """n, entries, right side and engine; the first faulty record decides."""
    at, n, count, engine, last = 0, None, 0, None, -1
    entries, right = [], {}
    while at < len(s):
        mark = s[at : at + 2]
        long = MARKS.get(mark)
        if long is None or at + long > len(s):
            raise Refused(12)
        r = s[at : at + long]
        at += long
        if engine is not None:
            raise Refused(12)
        if (mark == b"SZ") != (n is None):
            raise Refused(12)
        if mark == b"SZ":
            n, count = struct.unpack("<II", r[2:])
            if n > 256 or count > 2048:
                raise Refused(1)
        elif mark == b"EN":
            if len(entries) == count:
                raise Refused(12)
            row, column, value = struct.unpack("<IIQ", r[2:])
            if row >= n or column >= n:
                raise Refused(4)
            if any((row, column) == (a, b) for a, b, _ in entries):
                raise Refused(9)
            entries.append((row, column, value))
        elif len(entries) < count:
            raise Refused(12)
        elif mark == b"RH":
            row, value = struct.unpack("<IQ", r[2:])
            if row >= n:
                raise Refused(4)
            if row <= last:
                raise Refused(5)
            last = row
            right[row] = value
        else:
            if r[2] not in (1, 2):
                raise Refused(12)
            engine = r[2]
    if engine is None:
        raise Refused(12)
    b = [of_bits(right.get(i, 0)) for i in range(n)]
    return n, entries, b, engine


def solve(n, entries, b, engine):
    """Assembled, analysed, factored, solved forward and transposed."""
    cols = [sorted(((r, of_bits(v)) for r, c, v in entries if c == k), key=lambda e: e[0]) for k in range(n)]
    p, i, _ = model.matrix_of(cols)
    _, us, ls = model.analysis(n, p, i)
    if len(flat(us)) > 2048:
        raise Refused(7)
    if engine == 1 and any(r > k and r not in ls[k] for k in range(n) for r, _ in cols[k]):
        raise Refused(9)
    l = (model.left_of if engine == 1 else model.up_of)(n, cols, us, ls)
    c = dict(s0=pointers(ls), s1=flat(ls), v=flat(l), b=b)
    model.dense(c, n, n, False)
    model.dense(c, n, n, True)
    return b


def answer(s):
    try:
        n, entries, b, engine = read(s)
        x = solve(n, entries, b, engine)
        return b"".join(b"XV" + struct.pack("<IQ", i, bits(x[i])) for i in range(n))
    except Refused as r:
        number, column, _ = r.answer
        return b"NO" + struct.pack("<BI", number, column)


if __name__ == "__main__":
    with open(sys.argv[1], "rb") as f:
        sys.stdout.buffer.write(answer(f.read()))
