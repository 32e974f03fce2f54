"""Named cases: what a reader would try by hand. Slices are dirty and longer than needed unless a case gives their lengths."""
import math

from model import WORDS

Q = ([0, 3, 5, 7, 10], [0, 2, 3, 1, 3, 0, 2, 0, 1, 3], [4.0, 2.0, 2.0, 9.0, 3.0, 2.0, 5.0, 2.0, 3.0, 6.25])
L = ([0, 3, 5, 7, 8], [0, 2, 3, 1, 3, 2, 3, 3], [2.0, 1.0, 1.0, 3.0, 1.0, 2.0, -0.5, 2.0])
OBLONG = ([0, 2, 3, 5, 7], [0, 2, 1, 0, 2, 0, 1], [1.0, -0.0, 0.0, 4.0, 5.0, 6.0, 7.0])
FULL = ([0, 3, 5, 6], [0, 1, 2, 1, 2, 2], [2.0, 4.0, 6.0, 8.0, 4.0, 2.0])
ONES = [1.0] * 20
TWELVE = [2.0, 12.0, 12.0]


def named(name, op, m, n, lent=None, d=0, e=0, **slots):
    """A case whose slices are as given; those that `lent` names get so many dirty elements."""
    c = {s: [] for s in WORDS + ["v", "b", "o", "x"]}
    for s, l in slots.items():
        c[s] = list(l)
    for s, k in (lent or {}).items():
        c[s] = [7 + k] * k if s in WORDS else [7.5] * k
    return dict(op=op, kind="named", name=name, numbers=[m, n, d, e], slots=c)


def matrix(a):
    return dict(s0=a[0], s1=a[1], v=a[2])


def checks():
    p, i, v = Q
    given = [
        ("Q", 4, 4, p, i, v), ("0 by 0, the one pointer 0", 0, 0, [0], [], []), ("3 by 0", 3, 0, [0], [], []),
        ("0 by 3", 0, 3, [0] * 4, [], []), ("Q with rows to spare", 65535, 4, p, i, v),
        ("an empty column first and last", 2, 3, [0, 0, 2, 2], [0, 1], [1.0, 2.0]),
        ("a row falls from a column to the next", 2, 2, [0, 1, 2], [1, 0], [1.0, 2.0]),
        ("65,536 rows", 65536, 4, p, i, v), ("65,536 columns, all else wrong too", 4, 65536, [5], [9, 9], []),
        ("the largest dimensions of 32 bits", 4294967295, 4294967295, p, i, v),
        ("a pointer too few", 4, 4, [0, 3, 5, 10], i, v), ("a pointer too many", 4, 4, p + [10], i, v), ("no pointer", 0, 0, [], [], []),
        ("a value too few", 4, 4, p, i, v[:9]), ("a value too many", 4, 4, p, i, v + [0.0]),
        ("the first pointer is 1", 4, 4, [1, 3, 5, 7, 10], i, v), ("a pointer falls", 4, 4, [0, 5, 3, 7, 10], i, v),
        ("a pointer falls to 0 and rises again", 4, 4, [0, 3, 0, 7, 10], i, v),
        ("the last pointer is one short", 4, 4, [0, 3, 5, 7, 9], i, v), ("the last pointer is one over", 4, 4, [0, 3, 5, 7, 11], i, v),
        ("a pointer past the end between", 4, 4, [0, 3, 4000000000, 7, 10], i, v), ("0 by 0, the one pointer 1", 0, 0, [1], [], []),
        ("the last row is the row count", 3, 4, p, i, v), ("an entry where there are no rows", 0, 1, [0, 1], [0], [1.0]),
        ("the largest row", 4, 4, p, [4294967295] + i[1:], v), ("a row twice in a column", 4, 4, p, [0, 2, 2] + i[3:], v),
        ("a row falls in the first column", 4, 4, p, [2, 0] + i[2:], v), ("a row falls in the last column", 4, 4, p, i[:8] + [3, 1], v),
        ("1 before 2, 3, 4 and 5", 65536, 2, [1, 0], [7, 7], []), ("2 before 3, 4 and 5", 3, 4, [1, 3, 2, 7], [0, 0, 9], []),
        ("2 by the values before 3 and 4", 3, 4, [0, 5, 3, 7, 10], i, [1.0]),
        ("3 before 4 and 5", 3, 4, [0, 5, 3, 7, 10], [0, 0] + i[2:9] + [9], v),
        ("4 in the last column before 5 in the first", 4, 4, p, [0, 0] + i[2:9] + [4], v),
    ]
    out = [named(name, "check", m, n, **matrix((p, i, v))) for name, m, n, p, i, v in given]
    return out + [named(name, "check_pattern", m, n, s0=p, s1=i) for name, m, n, p, i, v in given]


def vectors():
    given = [
        ("rising rows", 5, [0, 2, 4], 3), ("empty, dimension 0", 0, [], 0), ("dimension 65,535", 65535, [65534], 1),
        ("dimension 65,536", 65536, [0], 0), ("a value too few", 5, [0, 2, 9], 2), ("a value too many", 5, [0, 0], 3),
        ("a row is the dimension, and falls", 5, [5, 4], 2), ("a row twice", 5, [1, 1], 2),
    ]
    return [named(name, "check_vector", 0, n, s1=i, v=ONES[:k]) for name, n, i, k in given]


def room(p, i, v, w1, w2, w3, x):
    return dict(s4=p, s5=i, o=v, w1=w1, w2=w2, w3=w3, x=x)


def transposes():
    none, exact = room(*[0] * 7), room(4, 7, 7, 5, 5, 5, 5)
    p, i, v = OBLONG
    given = [
        ("all slices longer than needed", 3, 4, OBLONG, room(*[8] * 7)), ("all exactly as long as needed", 3, 4, OBLONG, exact),
        ("0 by 0", 0, 0, ([0], [], []), room(1, 0, 0, 1, 1, 1, 1)), ("0 by 3", 0, 3, ([0] * 4, [], []), room(1, 0, 0, 4, 4, 4, 4)),
        ("3 by 0", 3, 0, ([0], [], []), room(4, 0, 0, 4, 4, 4, 4)),
        ("one row", 1, 3, ([0, 1, 2, 3], [0, 0, 0], [1.0, 2.0, 3.0]), room(2, 3, 3, 4, 4, 4, 4)),
        ("one column", 3, 1, ([0, 3], [0, 1, 2], [1.0, 2.0, 3.0]), room(4, 3, 3, 4, 4, 4, 4)),
        ("1 before 6 and 7", 65536, 4, OBLONG, none), ("2 before 3, 6 and 7", 3, 4, ([1, 2], i, v), none),
        ("3 before 6 and 7", 3, 4, ([0, 2, 1, 5, 7], i, v), none), ("4 before 6 and 7", 2, 4, OBLONG, none),
        ("5 before 6 and 7", 3, 4, (p, [0, 0] + i[2:], v), none), ("6 before 7", 3, 4, OBLONG, room(3, 6, 6, 4, 4, 4, 4)),
        ("0 by 0 with no pointer", 0, 0, ([0], [], []), room(0, 0, 0, 1, 1, 1, 1)),
    ]
    given += [(f"{s} is one short", 3, 4, OBLONG, dict(exact, **{s: exact[s] - 1})) for s in exact]
    return [named(name, "transpose", m, n, lent, **matrix(a)) for name, m, n, a, lent in given]


def triplets():
    roomy, exact = room(5, 6, 6, 14, 14, 14, 14), room(4, 2, 2, 10, 10, 10, 10)
    four = [1.0, 2.0, 3.0, 4.0]
    given = [
        ("in order", 3, 3, [0, 2, 1, 0, 2], [0, 0, 1, 2, 2], [-0.0, 1.0, 2.0, 0.0, 3.0], roomy),
        ("reversed", 3, 3, [2, 0, 1, 2, 0], [2, 2, 1, 0, 0], [3.0, 0.0, 2.0, 1.0, -0.0], roomy),
        ("shuffled", 3, 3, [1, 2, 0, 0, 2], [1, 0, 2, 0, 2], [2.0, 1.0, 0.0, -0.0, 3.0], roomy),
        ("by rows", 3, 3, [0, 0, 1, 2, 2], [0, 2, 1, 0, 2], [-0.0, 0.0, 2.0, 1.0, 3.0], roomy),
        ("columns rise, a row falls", 3, 3, [0, 2, 1, 2, 0], [0, 0, 1, 2, 2], [-0.0, 1.0, 2.0, 3.0, 0.0], roomy),
        ("one column", 4, 1, [3, 0, 2], [0, 0, 0], [1.0, 2.0, 3.0], roomy), ("one row", 1, 4, [0, 0, 0], [3, 0, 2], [1.0, 2.0, 3.0], roomy),
        ("0 by 0", 0, 0, [], [], [], roomy), ("3 by 0", 3, 0, [], [], [], roomy), ("0 by 3", 0, 3, [], [], [], roomy),
        ("the first two at one place", 3, 3, [1, 1, 0, 2], [2, 2, 0, 1], four, roomy),
        ("the last two at one place", 3, 3, [0, 2, 1, 1], [0, 1, 2, 2], four, roomy),
        ("first and last at one place", 3, 3, [1, 0, 2, 1], [2, 0, 1, 2], four, roomy),
        ("the same with one value", 3, 3, [1, 0, 2, 1], [2, 0, 1, 2], [1.0, 2.0, 3.0, 1.0], roomy),
        ("4 by a row before 9", 3, 3, [1, 1, 3], [2, 2, 0], four[:3], roomy), ("4 by a column before 9", 3, 3, [1, 1, 0], [2, 2, 3], four[:3], roomy),
        ("6 before 9", 3, 3, [1, 1, 0], [2, 2, 0], four[:3], room(4, 3, 3, 11, 10, 11, 11)),
        ("7 before 9", 3, 3, [1, 1, 0], [2, 2, 0], four[:3], room(4, 3, 2, 11, 11, 11, 11)),
        ("room exactly enough", 2, 3, [1, 0], [2, 2], four[:2], exact), ("in order, room exactly enough", 2, 3, [0, 1], [2, 2], four[:2], exact),
        ("a row too many", 2, 2, [0, 1, 0], [0, 1], four[:2], roomy), ("a row too few", 2, 2, [0], [0, 1], four[:2], roomy),
        ("a column too many", 2, 2, [0, 1], [0, 1, 0], four[:2], roomy), ("a column too few", 2, 2, [0, 1], [0], four[:2], roomy),
        ("a value too many", 2, 2, [0, 1], [0, 1], four[:3], roomy), ("a value too few", 2, 2, [0, 1], [0, 1], four[:1], roomy),
        ("65,536 rows", 65536, 1, [0], [0], [1.0], roomy), ("65,536 columns", 1, 65536, [0], [0], [1.0], roomy),
    ]
    given += [(f"{s} is one short", 2, 3, [1, 0], [2, 2], four[:2], dict(exact, **{s: exact[s] - 1})) for s in exact]
    return [named(name, "triplet", m, n, lent, s0=i, s1=j, v=v) for name, m, n, i, j, v, lent in given]


def patterns():
    given = [
        ("E1 E2 E3", 4, Q[0], Q[1]), ("E8", 1, [0, 0], []), ("E9", 2, [0, 1, 2], [0, 0]), ("0 by 0", 0, [0], []), ("1 by 1", 1, [0, 1], [0]),
        ("chain", 5, [0, 1, 3, 5, 7, 9], [0, 0, 1, 1, 2, 2, 3, 3, 4]), ("star, centre last", 5, [0, 1, 2, 3, 4, 9], [0, 1, 2, 3, 0, 1, 2, 3, 4]),
        ("star, centre first", 5, [0, 1, 3, 5, 7, 9], [0, 0, 1, 0, 2, 0, 3, 0, 4]), ("dense", 4, [0, 4, 8, 12, 16], [0, 1, 2, 3] * 4),
        ("empty columns", 4, [0, 0, 1, 1, 3], [1, 1, 3]), ("only below the diagonal", 3, [0, 2, 3, 3], [1, 2, 2]),
        ("below the diagonal as well", 3, [0, 3, 5, 7], [0, 1, 2, 1, 2, 0, 2]), ("no diagonal", 4, [0, 0, 1, 2, 4], [0, 0, 1, 2]),
    ]
    roomy, exact = dict(s2=6, s3=7, s4=16, s5=7, s6=16, w1=8, w2=8, w3=8, x=8), dict(s2=4, s3=5, s4=8, s5=5, s6=8, w1=5, w2=5, w3=5, x=5)
    out = [named(name, "analyse", n, n, roomy, s0=p, s1=i) for name, n, p, i in given]
    out += [named("exactly enough", "analyse", 4, 4, exact, s0=Q[0], s1=Q[1]), named("2 by 3", "analyse", 2, 3, roomy, s0=[0] * 4)]
    out += [named(f"{s} is one short", "analyse", 4, 4, dict(exact, **{s: exact[s] - 1}), s0=Q[0], s1=Q[1]) for s in exact]
    fresh = dict(s2=[2, 3, 3, 4294967295], s3=[0, 1, 2, 4, 8], s4=[0, 1, 0, 2, 1, 0, 2, 3], s5=[0, 3, 5, 7, 8], s6=[0, 2, 3, 1, 3, 2, 3, 3])
    scratch = dict(w1=5, w2=5, w3=5, x=5)
    changes = [("the fresh one", 8, {}), ("one value too few", 7, {}), ("a tree's element", 9, dict(s2=0)), ("a pointer of U", 9, dict(s3=1)),
               ("a row of U", 9, dict(s4=4)), ("a pointer of L", 9, dict(s5=4)), ("a row of L", 9, dict(s6=7)), ("7 before 8", 7, dict(s6=7)),
               ("the last pointer of U, too large", 9, dict(s3=4)), ("the last pointer of L, too large", 9, dict(s5=4))]
    for name, rooms, change in changes:
        lent = {s: [x + 1 if change.get(s) == q and x < 4294967295 else x for q, x in enumerate(l)] for s, l in fresh.items()}
        out.append(named(name, "compare", 4, 4, scratch, d=rooms, s0=Q[0], s1=Q[1], **lent))
    for s in fresh:
        out.append(named(f"{s} is one short", "compare", 4, 4, scratch, d=8, s0=Q[0], s1=Q[1], **dict(fresh, **{s: fresh[s][:-1]})))
    return out


def dense():
    p, i, v = FULL
    low = ([0, 2, 3], [0, 1, 1])
    nan, inf = math.nan, math.inf
    given = [
        ("E5, E6", 4, 4, L, [2.0, 3.0, 5.0, 4.5]), ("E6", 4, 4, L, [10.0, 5.0, 5.0, 4.0]),
        ("entries above the diagonal", 3, 3, ([0, 2, 4, 7], [0, 2, 0, 1, 0, 1, 2], [2.0, 4.0, 7.0, 4.0, 7.0, 7.0, 2.0]), TWELVE),
        ("n 0", 0, 0, ([0], [], []), []), ("n 1", 1, 1, ([0, 1], [0], [4.0]), [2.0]), ("three columns", 3, 3, FULL, TWELVE),
        ("first absent", 3, 3, ([0, 2, 4, 5], i[1:], v[1:]), TWELVE), ("last absent", 3, 3, ([0, 3, 5, 5], i[:5], v[:5]), TWELVE),
        ("first and last absent", 3, 3, ([0, 2, 4, 4], i[1:5], v[1:5]), TWELVE), ("all absent", 3, 3, ([0] * 4, [], []), TWELVE),
        ("+0 between", 3, 3, (p, i, v[:3] + [0.0, 4.0, 2.0]), TWELVE), ("-0 between and last", 3, 3, (p, i, v[:3] + [-0.0, 4.0, -0.0]), TWELVE),
        ("n 1, +0", 1, 1, ([0, 1], [0], [0.0]), [2.0]), ("NaN diagonal", 3, 3, (p, i, v[:3] + [nan, 4.0, 2.0]), TWELVE),
        ("infinite diagonal", 3, 3, (p, i, v[:3] + [inf, 4.0, 2.0]), TWELVE), ("infinite value", 3, 3, (p, i, [2.0, inf] + v[2:]), TWELVE),
        ("infinite and NaN right side", 3, 3, FULL, [inf, 1.0, nan]), ("zeros of both signs", 3, 3, (p, i, [-2.0, 4.0, 6.0, 8.0, -4.0, 2.0]), [0.0, -0.0, 0.0]),
        ("-0 meets a zero column", 2, 2, (*low, [1.0, -1.0, 1.0]), [0.0, -0.0]), ("rounded", 2, 2, (*low, [3.0, 0.1, 7.0]), [1.0, 0.3]),
        ("65,536 columns", 3, 65536, FULL, TWELVE), ("not square", 4, 3, FULL, TWELVE), ("b one short", 3, 3, FULL, TWELVE[:2]),
        ("b one long", 3, 3, FULL, TWELVE + [9.0]), ("a value too few", 3, 3, (p, i, v[:5]), TWELVE),
        ("pointers, and b one short", 3, 3, ([0, 3, 2, 6], i, v), TWELVE[:2]), ("pointers", 3, 3, ([0, 3, 2, 6], i, v), TWELVE),
        ("a row too large", 3, 3, (p, [0, 1, 3, 1, 2, 2], v), TWELVE), ("a row twice", 3, 3, (p, [0, 1, 1, 1, 2, 2], v), TWELVE),
    ]
    return [named(name, op, m, n, b=b, **matrix(a)) for name, m, n, a, b in given for op in ("forward", "transposed")]


def sparse():
    p, i, v = L
    roomy, exact = dict(s5=6, o=6, w1=6, w2=6, w3=6, x=6), dict(s5=3, o=3, w1=5, w2=5, w3=5, x=5)
    falls, nan, inf = [0, 3, 2, 7, 8], math.nan, math.inf
    given = [
        ("E5's right side, full", 4, 4, L, [0, 1, 2, 3], [2.0, 3.0, 5.0, 4.5], roomy), ("empty", 4, 4, L, [], [], roomy),
        ("row 0 reaches 0, 2 and 3", 4, 4, L, [0], [2.0], roomy), ("row 3 reaches itself", 4, 4, L, [3], [4.5], roomy),
        ("rows 1 and 2 reach 1, 2 and 3", 4, 4, L, [1, 2], [3.0, 5.0], roomy),
        ("a chain reaches all", 4, 4, ([0, 2, 4, 6, 7], [0, 1, 1, 2, 2, 3, 3], [2.0, 1.0, 2.0, 1.0, 2.0, 1.0, 2.0]), [0], [16.0], roomy),
        ("rows above the diagonal reach nothing", 3, 3, ([0, 1, 3, 6], [0, 0, 1, 0, 1, 2], [2.0, 7.0, 4.0, 7.0, 7.0, 2.0]), [2], [12.0], roomy),
        ("n 0", 0, 0, ([0], [], []), [], [], roomy), ("n 1", 1, 1, ([0, 1], [0], [4.0]), [0], [2.0], roomy),
        ("a zero is kept", 4, 4, L, [0, 2], [2.0, 1.0], roomy), ("stored zeros are kept", 4, 4, L, [1], [0.0], roomy),
        ("-0 at a row of an unreached column", 2, 2, ([0, 2, 3], [0, 1, 1], [1.0, -1.0, 1.0]), [1], [-0.0], roomy),
        ("unreached diagonal +0", 4, 4, (p, i, [0.0] + v[1:]), [1], [3.0], roomy), ("unreached diagonal absent", 2, 2, ([0, 1, 2], [1, 1], [1.0, 2.0]), [1], [3.0], roomy),
        ("empty side, all absent", 3, 3, ([0] * 4, [], []), [], [], roomy), ("reached diagonal -0", 4, 4, (p, i, v[:5] + [-0.0, -0.5, 2.0]), [0], [2.0], roomy),
        ("two reached, the lowest named", 4, 4, (p, i, v[:5] + [0.0, -0.5, 0.0]), [0], [2.0], roomy),
        ("reached and absent, an unreached one below", 3, 3, ([0, 0, 1, 1], [1], [2.0]), [2], [3.0], roomy),
        ("NaN and infinite diagonals", 4, 4, (p, i, [nan, 1.0, 1.0, inf] + v[4:]), [0, 1], [2.0, 3.0], roomy),
        ("all exactly as long as needed", 4, 4, L, [0], [2.0], exact),
        ("short and a zero diagonal: 7", 4, 4, (p, i, [0.0] + v[1:]), [0], [2.0], dict(exact, s5=2)),
        ("w1 one short, outputs too: 6", 4, 4, L, [0], [2.0], dict(exact, s5=2, o=2, w1=4)),
        ("65,536 rows", 65536, 4, L, [0], [2.0], roomy), ("not square", 5, 4, L, [0], [2.0], roomy),
        ("b's value too many, pointers", 4, 4, (falls, i, v), [0], [2.0, 2.0], roomy), ("pointers, b's row too large", 4, 4, (falls, i, v), [4], [2.0], roomy),
        ("b's row too large", 4, 4, L, [4], [2.0], roomy), ("a row twice, b's row too large", 4, 4, (p, [0, 2, 2] + i[3:], v), [4], [2.0], roomy),
        ("b's row twice", 4, 4, L, [1, 1], [2.0, 3.0], roomy),
    ]
    given += [(f"{s} is one short", 4, 4, L, [0], [2.0], dict(exact, **{s: exact[s] - 1})) for s in exact]
    return [named(name, "sparse", m, n, lent, s2=bi, b=bv, **matrix(a)) for name, m, n, a, bi, bv, lent in given]


def products():
    side = lambda p, i, v: dict(s2=p, s3=i, b=v)
    tall, flat = dict(s0=[0, 3], s1=[0, 1, 2], v=[1.0, 2.0, 3.0]), side([0, 1, 2, 3], [0, 0, 0], [1.0, 2.0, 3.0])
    scratch = dict(w1=4, w2=4, w3=4, x=4)
    wide, opposed = dict(s0=[0, 1, 2], s1=[0, 0], v=[1.0, 1.0]), side([0, 2], [0, 1], [1.0, -1.0])
    out = [named("more entries than both have", "product", 3, 1, dict(scratch, s4=4, s5=9, o=9), d=1, e=3, **tall, **flat)]
    out += [named(f"more entries than both have, {s} one short", "product", 3, 1, dict(scratch, **dict(dict(s4=4, s5=9, o=9), **{s: k})), d=1, e=3, **tall, **flat)
            for s, k in (("s4", 3), ("s5", 8), ("o", 8), ("w1", 3), ("w2", 3), ("w3", 3), ("x", 3))]
    out += [named("cancelled, so no row is needed", "product", 1, 2, dict(scratch, s4=2), d=2, e=1, **wide, **opposed)]
    out += [named("rows that do not meet", "product", 2, 2, dict(scratch, s4=2, s5=1, o=1), d=2, e=1, s0=[0, 1, 1], s1=[1], v=[5.0], **side([0, 1], [0], [2.0]))]
    two, other = dict(s0=[0, 2, 3], s1=[0, 2, 1], v=[1.0, 2.0, 3.0]), side([0, 2, 3], [1, 2, 1], [4.0, -2.0, 5.0])
    out += [named("places of both", "sum", 3, 2, dict(s4=3, s5=k, o=k), d=3, e=2, **two, **other) for k in (6, 4, 3)]
    return out + [named("nothing in one", "sum", 3, 2, dict(s4=3, s5=3, o=3), d=3, e=2, **two, **side([0, 0, 0], [], []))]


def one(v):
    return dict(s0=[0, 1], s1=[0], v=[v])


def differences():
    """The smallest input of each difference from the Rust (docs/DIFFERENCES.md), by its name in oracle/differences."""
    scratch, small = dict(w1=3, w2=3, w3=3, x=3), dict(s4=3, s5=3, o=3, w1=8, w2=8, w3=8, x=8)
    at = lambda i, j, v: dict(s0=i, s1=j, v=v)
    low = dict(s0=[0, 2, 3], s1=[0, 1, 1], v=[4.0, 1.0, 4.0], s2=[4294967295] * 2, s3=[0, 1, 2], s4=[0, 1], s5=[0, 1, 2], s6=[0, 1])
    high = dict(s0=[0, 1, 3], s1=[0, 0, 1], s2=[1, 4294967295], s3=[0, 1, 3], s4=[0, 0, 1], s5=[0, 2, 3], s6=[0, 1, 1])
    single = dict(s2=[4294967295], s3=[0, 1], s4=[0], s5=[0, 1], s6=[0])
    return [
        named("bad matrix", "check", 1, 1, s0=[0, 1], s1=[1], v=[1.0]), named("bad matrix", "transpose", 1, 1, small, s0=[0, 1], s1=[1], v=[1.0]),
        named("values longer than the rows", "check", 1, 1, s0=[0, 1], s1=[0], v=[1.0, 1.0]),
        named("sums of unlike lengths", "sums", 0, 0, s0=[5], s1=[]), named("sums past 32 bits", "sums", 0, 0, s0=[4294967295, 1, 0], s1=[7, 7, 7]),
        named("root of a NaN", "root", 0, 0, x=[math.nan]), named("-0.0 first", "triplet", 1, 1, small, **at([0], [0], [-0.0])),
        named("a place twice", "triplet", 1, 1, small, **at([0, 0], [0, 0], [1.0, 2.0])),
        named("a walker's parts of unequal length", "walk", 0, 0, s0=[7, 7], s1=[3], v=[]),
        named("a row too large", "triplet", 1, 1, small, **at([1], [0], [1.0])), named("a column too large", "triplet", 1, 1, small, **at([0], [1], [1.0])),
        named("y longer", "axpy", 0, 1, s1=[0], v=[1.0], b=[1.0, 1.0], x=[1.0, 1.0]), named("root of the tree", "analyse", 1, 1, dict(scratch, s2=1, s3=2, s4=1, s5=2, s6=1), s0=[0, 1], s1=[0]),
        named("not square", "analyse", 1, 2, dict(scratch, s2=2, s3=3, s4=2, s5=3, s6=2), s0=[0, 0, 0]),
        named("b half changed", "forward", 2, 2, s0=[0, 1, 2], s1=[0, 1], v=[2.0, 0.0], b=[2.0, 2.0]), named("b longer", "forward", 1, 1, b=[1.0, 1.0], **one(1.0)),
        named("NaN pivot", "up", 1, 1, dict(scratch, o=1), **one(math.nan), **single), named("stray row", "left", 2, 2, dict(scratch, o=2), **low),
        named("kept x", "left", 2, 2, dict(scratch, o=3), v=[4.0, 1.0, 4.0], **high), named("refused values", "up", 1, 1, dict(scratch, o=2), **one(-1.0), **single),
        named("another pattern's analysis", "up", 1, 1, dict(scratch, o=1), **one(4.0), **dict(single, s2=[0])),
        named("inner dimensions", "product", 1, 1, dict(scratch, s4=2, s5=1, o=1), d=2, e=1, s0=[0, 0], s2=[0, 0]),
        named("sum's dimensions", "sum", 1, 1, dict(s4=2, s5=1, o=1), d=2, e=1, s0=[0, 0], s2=[0, 0]),
        named("side past the end", "sparse", 1, 1, dict(scratch, s5=1, o=1), s2=[1], b=[1.0], **one(1.0)),
    ]


def cases():
    return differences() + checks() + vectors() + transposes() + triplets() + patterns() + dense() + sparse() + products()
