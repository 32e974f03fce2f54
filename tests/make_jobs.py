#!/usr/bin/env python3
"""Makes the job files that crates/job_run is run on, and what it must write: by tests/job_model.py, not by the program.

    tests/make_jobs.py           writes crates/job_run/data/*.job, and args and stdout beside it
"""
import os
import random
import shutil
import struct

import job_model

HERE = os.path.dirname(os.path.abspath(__file__))
CRATE = os.path.join(HERE, "..", "crates", "job_run")
BITS = {"nan": 0x7FF8000000000000, "snan": 0x7FF0000000000001, "-nan": 0xFFF8000000000123, "-0": 1 << 63}


def bits(v):
    return BITS[v] if isinstance(v, str) else struct.unpack("<Q", struct.pack("<d", v))[0]


def sz(n, count):
    return b"SZ" + struct.pack("<II", n, count)


def en(row, column, v=1.0):
    return b"EN" + struct.pack("<IIQ", row, column, bits(v))


def rh(row, v=1.0):
    return b"RH" + struct.pack("<IQ", row, bits(v))


def go(engine=1):
    return b"GO" + bytes([engine])


def job(n, entries, right, engine=1):
    return sz(n, len(entries)) + b"".join(en(*e) for e in entries) + b"".join(rh(*r) for r in right) + go(engine)


cases = []


def case(name, s):
    assert name not in [n for n, _ in cases]
    cases.append((name, s))


def both(name, n, entries, right):
    case(name + "_left", job(n, entries, right, 1))
    case(name + "_up", job(n, entries, right, 2))


# ---- sound files
case("whole_case", bytes.fromhex("535A0100000001000000 454E00000000000000000000000000001040 52480000000000000000000000 40 474F01".replace(" ", "")))
Q = [(0, 0, 4.0), (2, 0, 2.0), (3, 0, 2.0), (1, 1, 9.0), (3, 1, 3.0), (0, 2, 2.0), (2, 2, 5.0), (0, 3, 2.0), (1, 3, 3.0), (3, 3, 6.25)]
FULL = [(0, 2.0), (1, 3.0), (2, 5.0), (3, 4.5)]
both("q", 4, Q, FULL)
both("q_no_right_side", 4, Q, [])
both("q_first_row_only", 4, Q, FULL[:1])
both("q_last_row_only", 4, Q, FULL[3:])
both("q_entries_turned_round", 4, Q[::-1], FULL)
both("q_upper_only", 4, [e for e in Q if e[0] <= e[1]], FULL)
both("q_minus_zero_right_side", 4, Q, [(0, "-0"), (2, "-0")])
both("n_0", 0, [], [])
both("two", 1, [(0, 0, 2.0)], [(0, 1.0)])
both("two_by_two", 2, [(0, 0, 4.0), (0, 1, 2.0), (1, 0, 2.0), (1, 1, 3.0)], [(0, 1.0), (1, 1.0)])
rng = random.Random(7)


def spd(n, place):
    """values that keep the matrix well above zero, on the places asked"""
    v = {}
    for r, c in place:
        v.setdefault((min(r, c), max(r, c)), rng.uniform(-1.0, 1.0) if r != c else rng.uniform(20.0, 30.0))
    return [(r, c, v[min(r, c), max(r, c)]) for r, c in place]


dense = [(r, c) for c in range(8) for r in range(8)]
both("dense_8", 8, spd(8, dense), [(i, rng.uniform(-5, 5)) for i in range(8)])
sparse = sorted({(i, i) for i in range(30)} | {p for _ in range(40) for a in [rng.sample(range(30), 2)] for p in [(a[0], a[1]), (a[1], a[0])]})
rng.shuffle(sparse)
both("sparse_30", 30, spd(30, sparse), [(i, rng.uniform(-5, 5)) for i in range(0, 30, 2)])
both("subnormal", 2, [(0, 0, 5e-324), (1, 1, 1e-310)], [(0, 1e-320), (1, 1.0)])
both("overflow", 2, [(0, 0, 1e308), (0, 1, 1e300), (1, 0, 1e300), (1, 1, 1e308)], [(0, 1e308), (1, 1e308)])
both("infinite_entry", 2, [(0, 0, float("inf")), (0, 1, 1.0), (1, 0, 1.0), (1, 1, 2.0)], [(0, 1.0), (1, 1.0)])
for v in ("nan", "snan", "-nan"):
    both("right_side_" + v.replace("-", "minus_"), 2, [(0, 0, 4.0), (1, 1, 9.0)], [(0, v), (1, 3.0)])
both("nan_off_the_diagonal", 2, [(0, 0, 4.0), (0, 1, "nan"), (1, 0, "nan"), (1, 1, 9.0)], [(0, 1.0), (1, 1.0)])
both("minus_zero_off_the_diagonal", 2, [(0, 0, 4.0), (0, 1, "-0"), (1, 0, "-0"), (1, 1, 9.0)], [(0, 1.0), (1, 1.0)])

# ---- the numbers of the calls
both("pivot_none", 1, [], [(0, 1.0)])
both("pivot_minus_zero", 1, [(0, 0, "-0")], [])
both("pivot_snan_middle", 3, [(0, 0, 1.0), (1, 1, "snan"), (2, 2, 1.0)], [])
both("pivot_negative_last", 3, [(0, 0, 1.0), (1, 1, 2.0), (2, 2, -3.0)], [(0, 1.0)])
both("not_definite", 2, [(0, 0, 1.0), (0, 1, 2.0), (1, 0, 2.0), (1, 1, 4.0)], [])
both("lower_without_mirror", 2, [(0, 0, 4.0), (1, 0, 1.0), (1, 1, 9.0)], [(0, 1.0), (1, 1.0)])
case("stray_before_bad_pivot_left", job(2, [(0, 0, -4.0), (1, 0, 1.0), (1, 1, 9.0)], []))
band = [(r, k) for k in range(256) for r in range(max(0, k - (8 if 8 <= k < 36 else 7)), k + 1)]
assert len(band) == 2048
both("u_2048", 256, spd(256, band), [(i, 1.0) for i in range(256)])
more = [p for p in band if p != (99, 100)] + [(28, 36)]
both("u_2049", 256, spd(256, more), [])

# ---- the maxima, and one past
mirror = [(r, c) for c in range(256) for r in range(256) if abs(r - c) <= 3 or (abs(r - c) == 4 and max(r, c) < 138)]
assert len(mirror) == 2048
largest = spd(256, mirror)
sides = [(i, rng.uniform(-9, 9)) for i in range(256)]
both("largest", 256, largest, sides)
whole = job(256, largest, sides)
assert len(whole) == 40461
case("largest_and_a_byte", whole + b"G")
case("largest_and_a_record", whole + rh(0))
case("largest_and_100000_bytes", whole + b"RH" * 50000)
case("right_side_257_row_0", whole[:-3] + rh(0) + go())
case("right_side_257_row_256", whole[:-3] + rh(256) + go())
case("right_side_257_cut", whole[:-3] + rh(0)[:13])
case("entry_2049", sz(256, 2048) + b"".join(en(*e) for e in largest) + en(255, 0) + go())
case("n_257", job(257, [], []))
case("count_2049", sz(1, 2049) + go())
case("n_and_count_past", sz(257, 2049))
case("n_4294967295", sz(4294967295, 4294967295) + go())
case("n_257_cut", sz(257, 0)[:9])

# ---- mark, length, GO's byte, order
case("empty", b"")
case("one_byte", b"S")
case("mark_alone", b"SZ")
small = job(2, [(0, 0, 4.0), (1, 1, 9.0)], [(0, 1.0), (1, 1.0)])
case("small", small)
for name, a, e in (("size", 0, 10), ("entry", 10, 28), ("last_entry", 28, 46), ("right_side", 46, 60), ("last_right_side", 60, 74), ("go", 74, 77)):
    case("mark_of_" + name, small[:a] + b"XX" + small[a + 2 :])
    case("cut_in_" + name, small[: e - 1])
    case("ends_before_" + name, small[:a])
case("lower_case_mark", small.replace(b"SZ", b"sz"))
case("mark_turned_round", small.replace(b"GO", b"OG"))
for b in (0, 3, 255):
    case(f"go_byte_{b}", small[:-1] + bytes([b]))
case("byte_behind_go", small + b"\0")
case("record_behind_go", small + rh(1))
case("second_go", small + go())
case("second_size", small[:10] + small)
case("second_size_at_the_end", small[:-3] + sz(2, 2) + go())
case("entry_first", en(0, 0) + small)
case("right_side_first", rh(0) + small)
case("go_first", go() + small)
case("right_side_before_entry", small[:28] + rh(0) + small[28:])
case("go_before_entry", small[:28] + go())
case("entry_behind_right_side", small[:60] + en(0, 1) + small[60:])
case("one_entry_too_few", sz(2, 3) + small[10:])
case("one_entry_too_many", sz(2, 1) + small[10:])

# ---- 4, 5 and 9 at the first, a middle and the last record
three = [en(0, 0, 4.0), en(1, 1, 4.0), en(2, 2, 4.0)]
tail = rh(0) + rh(1) + rh(2) + go(2)
for k, name in enumerate(("first", "middle", "last")):
    for what, bad in (("row", en(3, k)), ("column", en(k, 3)), ("row_4294967295", en(4294967295, k))):
        case(f"{name}_entry_{what}", sz(3, 3) + b"".join(bad if i == k else e for i, e in enumerate(three)) + tail)
    case(f"{name}_right_side_row", sz(3, 3) + b"".join(three) + b"".join(rh(3 if i == k else i) for i in range(3)) + go(2))
case("second_entry_again", sz(3, 3) + three[0] + en(0, 0, 5.0) + three[2] + tail)
case("last_entry_again", sz(3, 3) + three[0] + three[1] + en(0, 0, "nan") + tail)
case("entry_mirrored_is_another", job(2, [(0, 1, 1.0), (1, 0, 1.0), (0, 0, 4.0), (1, 1, 4.0)], [(0, 1.0)], 2))
case("right_side_row_again", sz(3, 3) + b"".join(three) + rh(1) + rh(1) + go(2))
case("right_side_row_falls", sz(3, 3) + b"".join(three) + rh(0) + rh(2) + rh(1) + go(2))
case("entry_with_n_0", sz(0, 1) + en(0, 0) + go())
case("right_side_with_n_0", sz(0, 0) + rh(0) + go())

# ---- two faults in one record, and faults in two records
case("entry_out_of_turn_and_outside", small[:46] + en(9, 9) + small[46:])
case("right_side_outside_and_fallen", sz(3, 3) + b"".join(three) + rh(2) + rh(3) + go())
case("right_side_out_of_turn_and_outside", small[:28] + rh(7) + small[28:])
case("size_again_and_past", small[:10] + sz(300, 3000) + small[10:])
case("go_out_of_turn_and_bad", small[:28] + go(9) + small[28:])
case("entry_outside_and_cut", small[:28] + en(9, 9)[:17])
case("outside_then_bad_go", sz(3, 3) + en(3, 3) + b"".join(three[1:]) + rh(0) + go(9))
case("again_then_outside", sz(3, 3) + three[0] + three[0] + en(5, 5) + tail)
case("fallen_then_trailing", sz(3, 3) + b"".join(three) + rh(2) + rh(0) + go() + b"more")
case("past_then_bad_mark", sz(257, 0) + b"nothing")
case("bad_mark_then_past", b"??" + sz(257, 0))
case("again_and_no_go", sz(2, 2) + en(0, 0) + en(0, 0))
case("bad_pivot_and_bad_go", job(1, [(0, 0, -1.0)], [], 7))


def main():
    data = os.path.join(CRATE, "data")
    shutil.rmtree(data, ignore_errors=True)
    os.makedirs(data)
    with open(os.path.join(CRATE, "args"), "w") as args, open(os.path.join(CRATE, "stdout"), "w") as out:
        for name, s in cases:
            with open(os.path.join(data, name + ".job"), "wb") as f:
                f.write(s)
            args.write(name + ".job\n")
            out.write(f"{name}.job: {job_model.answer(s).hex()}\n")
    print(len(cases), "job files")


if __name__ == "__main__":
    main()
