"""Cases for the library's calls, from a seed: valid ones of each kind, and ones that each number refuses."""
import itertools
import math
import random
import struct

import model
import named
from model import ROOT, VALUES, WORDS, analysis, flat, of_bits, pointers

FACTORED = ("left", "up")
KINDS = ["definite", "upper", "unsymmetric", "absent", "indefinite", "singular", "zeros", "minus zeros", "subnormal", "infinite", "nan", "bits"]


def value(r, kind):
    if kind == "bits":
        return of_bits(r.getrandbits(64))
    if kind == "subnormal" and r.random() < 0.6:
        return of_bits(r.getrandbits(52) | r.getrandbits(1) << 63)
    if kind == "infinite" and r.random() < 0.2:
        return r.choice([math.inf, -math.inf, 1.7e308, -1.7e308])
    if kind == "nan" and r.random() < 0.1:
        return math.nan
    if kind == "zeros" and r.random() < 0.4:
        return 0.0
    if kind == "minus zeros" and r.random() < 0.4:
        return -0.0
    return r.choice([r.uniform(-4, 4), float(r.randint(-4, 4)), r.uniform(-1, 1) * 10.0 ** r.randint(-8, 8)])


def places(r, m, n, density):
    return [[i for i in range(m) if r.random() < density] for _ in range(n)]


def matrix(cols, r, kind):
    p, i = pointers(cols), flat(cols)
    return p, i, [value(r, kind) for _ in i]


def square(r, n, kind):
    """Columns and values of a square matrix of one kind."""
    density = r.choice([0.0, 0.1, 0.3, 0.7, 1.0]) if n < 12 else r.choice([0.02, 0.08, 0.3])
    upper = {(i, k) for k in range(n) for i in range(k) if r.random() < density}
    if kind == "unsymmetric":
        lower = {(i, k) for k in range(n) for i in range(k + 1, n) if r.random() < density}
    elif kind == "upper":
        lower = set()
    else:
        lower = {(k, i) for i, k in upper}
    diagonal = {(k, k) for k in range(n) if kind != "absent" or r.random() < 0.7}
    at = upper | lower | diagonal
    values, weight = {}, {}
    for i, k in sorted(at):
        values[i, k] = values[k, i] if (k, i) in values and kind != "unsymmetric" else value(r, kind)
    if kind in ("definite", "upper", "unsymmetric", "zeros", "minus zeros", "subnormal"):
        for k in range(n):
            weight[k] = sum(abs(values[e]) for e in at if k in e and e[0] != e[1])
            if (k, k) in values:
                values[k, k] = weight[k] + r.choice([1.0, 0.5, 1e-3])
    if kind == "singular" and n > 1:
        a, b = r.sample(range(n), 2)
        for e in at:
            if b in e:
                values[e] = 0.0
    cols = [sorted(i for i, j in at if j == k) for k in range(n)]
    return pointers(cols), flat(cols), [values[i, k] for k in range(n) for i in cols[k]]


def triangle(r, n, kind):
    """A lower triangle to solve by, now and then with rows above the diagonal or a bad one on it."""
    cols = [[i for i in range(n) if i == k or (i > k and r.random() < 0.3) or (i < k and r.random() < 0.05)] for k in range(n)]
    if r.random() < 0.15 and n:
        k = r.randrange(n)
        cols[k] = [i for i in cols[k] if i != k]
    p, i, v = matrix(cols, r, kind)
    if r.random() < 0.8:
        v = [1.5 if x == 0 else x for x in v]
    return p, i, v


def empty():
    return {s: [] for s in WORDS + VALUES}


def dirty(r, c, need):
    for w in ("w1", "w2", "w3"):
        c[w] = [r.getrandbits(32) for _ in range(need + r.choice([0, 0, 1, 5]))]
    c["x"] = [of_bits(r.getrandbits(64)) for _ in range(need + r.choice([0, 0, 1, 5]))]


def room(r, k):
    return k + r.choice([0, 0, 0, 1, 7])


def words(r, k):
    return [r.getrandbits(32) for _ in range(k)]


def doubles(r, k):
    return [of_bits(r.getrandbits(64)) for _ in range(k)]


def factoring(r, c, n, lent=True):
    tree, us, ls = analysis(n, c["s0"], c["s1"])
    fresh = dict(s2=tree, s3=pointers(us), s4=flat(us), s5=pointers(ls), s6=flat(ls))
    for s, l in fresh.items():
        c[s] = (l if lent else words(r, len(l))) + words(r, r.choice([0, 0, 0, 1, 3]))
    return len(flat(us))


def size(r):
    chance = r.random()
    if chance < 0.85:
        return r.choice([0, 1, 2, 3, 4, 5, 6, 8, 10, 14])
    return r.randint(15, 40) if chance < 0.98 else r.randint(41, 60)


def valid(r, op, kind):
    """A case that no number from 1 to 9 refuses, unless 9 does by chance."""
    c, n = empty(), size(r)
    m, d, e = n, 0, 0
    if op == "root":
        c["x"] = [value(r, kind) if r.random() < 0.3 else abs(value(r, kind))]
        return case(op, kind, [0, 0, 0, 0], c)
    if op == "sums":
        k = r.randint(0, 12)
        c["s0"], c["s1"] = [r.choice([0, 1, 5, r.getrandbits(12), 4294967295]) for _ in range(k)], words(r, k)
        return case(op, kind, [0, 0, 0, 0], c)
    if op == "walk":
        k = r.randint(0, 6)
        c["s1"], c["v"], c["s0"] = sorted(r.sample(range(20), k)), [value(r, kind) for _ in range(k)], words(r, r.choice([2, 2, 3]))
        return case(op, kind, [0, r.randint(0, k + 2), 0, 0], c)
    if op in ("check", "check_pattern", "check_vector", "transpose", "scale", "triplet", "product", "sum", "axpy"):
        m = size(r)
    if op in ("check_vector", "axpy"):
        c["s1"] = sorted(r.sample(range(n), r.randint(0, n)))
        c["v"] = [value(r, kind) for _ in c["s1"]]
        if op == "axpy":
            c["b"] = [value(r, kind) for _ in range(n)]
            c["x"] = [value(r, kind), r.choice([0.0, -0.0, 1.0, value(r, kind)])]
        return case(op, kind, [0, n, 0, 0], c)
    if op in ("analyse", "compare") + FACTORED:
        c["s0"], c["s1"], c["v"] = square(r, n, kind)
        t = factoring(r, c, n, op != "analyse")
        d = room(r, t)
        if op in FACTORED:
            c["o"] = doubles(r, d)
            d = 0
        if op in ("analyse", "compare"):
            c["v"] = []
        d = d if op == "compare" else 0
    elif op in ("forward", "transposed", "sparse"):
        c["s0"], c["s1"], c["v"] = triangle(r, n, kind)
        if op == "sparse":
            c["s2"] = sorted(r.sample(range(n), r.randint(0, min(n, 4))))
            c["b"] = [value(r, kind) for _ in c["s2"]]
            k = room(r, n)
            c["s5"], c["o"] = words(r, k), doubles(r, room(r, n))
        else:
            c["b"] = [value(r, kind) for _ in range(n)]
    elif op == "triplet":
        at = [(i, k) for i in range(m) for k in range(n) if r.random() < 0.3]
        r.shuffle(at)
        c["s0"], c["s1"], c["v"] = [i for i, _ in at], [k for _, k in at], [value(r, kind) for _ in at]
        c["s4"], c["s5"], c["o"] = words(r, room(r, n + 1)), words(r, room(r, len(at))), doubles(r, room(r, len(at)))
        dirty(r, c, 2 * (max(m, n) + 1) + len(at))
        return case(op, kind, [m, n, 0, 0], c)
    else:
        c["s0"], c["s1"], c["v"] = matrix(places(r, m, n, r.choice([0.1, 0.3, 0.6])), r, kind)
        if op == "scale":
            c["x"] = [value(r, kind)]
        if op in ("product", "sum"):
            d, e = (n, size(r)) if op == "product" else (m, n)
            c["s2"], c["s3"], c["b"] = matrix(places(r, d, e, r.choice([0.1, 0.3, 0.6])), r, kind)
            k = m * e if op == "product" else len(c["s1"]) + len(c["s3"])
            c["s4"], c["s5"], c["o"] = words(r, room(r, e + 1)), words(r, room(r, k)), doubles(r, room(r, k))
            exact(r, case(op, kind, [m, n, d, e], c))
        if op == "transpose":
            k = len(c["s1"])
            c["s4"], c["s5"], c["o"] = words(r, room(r, m + 1)), words(r, room(r, k)), doubles(r, room(r, k))
    if op in ("analyse", "compare", "sparse", "transpose", "product") + FACTORED:
        dirty(r, c, max(m, n, d if op == "product" else 0, e) + 1)
    return case(op, kind, [m, n, d, e], c)


def exact(r, k):
    """Half of the products and sums have room for just what remains."""
    if r.random() < 0.5:
        c = k["slots"]
        big = dict(c, **{s: list(c[s]) for s in WORDS + VALUES})
        for w in ("w1", "w2", "w3"):
            big[w] = [0] * 100
        big["x"] = [0.0] * 100
        if model.run(dict(k, slots=big))[0] == 0:
            fits = big["s4"][k["numbers"][3]]
            c["s5"], c["o"] = c["s5"][:fits + r.choice([0, 0, 2])], c["o"][:fits + r.choice([0, 0, 2])]


def case(op, kind, numbers, slots):
    return dict(op=op, kind=kind, numbers=numbers, slots=slots)


def damaged(r, op):
    """A valid case with one or two things wrong."""
    k = valid(r, op, r.choice(KINDS[:6]))
    c = k["slots"]
    for _ in range(r.choice([1, 1, 1, 2])):
        how = r.randrange(8)
        used = [s for s in WORDS + VALUES if c[s]]
        if how == 0:
            k["numbers"][r.randrange(4)] = r.choice([0, 1, 5, 65535, 65536, 4294967295])
        elif how == 1 and used:
            s = r.choice(used)
            c[s] = c[s][:-1]
        elif how == 2 and used:
            s = r.choice(used)
            c[s] = c[s] + [1 if s in WORDS else 1.0]
        elif how == 3:
            s = r.choice([s for s in ("s0", "s2", "s4") if c[s]] or ["s0"])
            if c[s]:
                c[s][r.randrange(len(c[s]))] = r.choice([0, 1, 2, 4294967295])
        elif how == 4:
            s = r.choice([s for s in ("s1", "s3", "s2", "s5", "s6") if c[s]] or ["s1"])
            if c[s]:
                c[s][r.randrange(len(c[s]))] = r.choice([0, 1, 2, 3, 65535, 4294967295])
        elif how == 5:
            s = r.choice(["w1", "w2", "w3", "x"])
            c[s] = c[s][:max(0, len(c[s]) - r.choice([1, 2, 6]))]
        elif how == 6:
            s = r.choice(["s4", "s5", "o", "s2", "s3", "s6"])
            c[s] = c[s][:max(0, len(c[s]) - r.choice([1, 2, 8]))]
        elif len(c["s1"]) > 1:
            a = r.randrange(len(c["s1"]) - 1)
            c["s1"][a], c["s1"][a + 1] = c["s1"][a + 1], c["s1"][a]
    k["kind"] = "damaged"
    return k


def of_pattern(op, n, cols, r):
    c = empty()
    c["s0"], c["s1"] = pointers(cols), flat(cols)
    c["v"] = [] if op == "analyse" else [4.0 + i if i == k else 1.0 for k in range(n) for i in cols[k]]
    t = factoring(r, c, n, op != "analyse")
    c["o"] = [] if op == "analyse" else doubles(r, t)
    dirty(r, c, n + 1)
    return case(op, "every pattern", [n, n, 0, 0], c)


def small_patterns(most):
    """Every pattern of a square matrix up to 3 by 3, and every upper one of 4 by 4, as cases of both engines and the analysis."""
    r, out = random.Random(1), []
    for n in range(most + 1):
        at = [(i, k) for k in range(n) for i in range(n) if n < 4 or i <= k]
        for chosen in itertools.product([False, True], repeat=len(at)):
            cols = [[i for (i, j), c in zip(at, chosen) if c and j == k] for k in range(n)]
            out += [of_pattern(op, n, cols, r) for op in ("analyse",) + FACTORED]
    return out


def four(first):
    """Every pattern of a 4 by 4 matrix whose first column has the rows that the four bits of `first` name, for the left factoring."""
    r, subsets = random.Random(first), [[i for i in range(4) if b >> i & 1] for b in range(16)]
    return [of_pattern("left", 4, [subsets[first], *rest], r) for rest in itertools.product(subsets, repeat=3)]


def generate(seed, count, ops, patterns=4):
    r = random.Random(seed)
    out = [k for k in paper() + named.cases() + boundaries() + small_patterns(patterns) if k["op"] in ops]
    while len(out) < count:
        op = r.choice(ops)
        out.append(damaged(r, op) if r.random() < 0.25 else valid(r, op, r.choice(KINDS)))
    return [k for k in out if all(len(k["slots"][s]) <= 4096 for s in WORDS + VALUES)]


# ---- the paper's own examples, and what stands at a boundary
Q = ([0, 3, 5, 7, 10], [0, 2, 3, 1, 3, 0, 2, 0, 1, 3], [4.0, 2.0, 2.0, 9.0, 3.0, 2.0, 5.0, 2.0, 3.0, 6.25])
L = ([0, 3, 5, 7, 8], [0, 2, 3, 1, 3, 2, 3, 3], [2.0, 1.0, 1.0, 3.0, 1.0, 2.0, -0.5, 2.0])


def exactly(op, m, n, a, d=0, e=0, b=None, more=None):
    """A case with scratch and outputs of just the length that is needed, all of it dirty."""
    r, c = random.Random(5), empty()
    c["s0"], c["s1"], c["v"] = (list(l) for l in a)
    if b:
        c["s2"], c["s3"], c["b"] = (list(l) for l in b)
    for s, l in (more or {}).items():
        c[s] = list(l)
    need = max(m, n, d, e) + 1 if op != "triplet" else 2 * (max(m, n) + 1) + len(c["s0"])
    if op in ("transpose", "triplet", "product", "sum", "sparse"):
        big = dict(c, s4=[9] * 200, s5=[9] * 200, o=[9.0] * 200, w1=[0] * 400, w2=[0] * 400, w3=[0] * 400, x=[0.0] * 400)
        big = {s: list(l) for s, l in big.items()}
        model.run(case(op, "", [m, n, d, e], big))
        cols = {"transpose": m, "triplet": n, "product": e, "sum": n, "sparse": 0}[op]
        t = big["s4"][cols] if op != "sparse" else sum(x != 9 for x in big["s5"])
        c["s4"] = words(r, 0 if op == "sparse" else cols + 1)
        c["s5"], c["o"] = words(r, t), doubles(r, t)
    if op in ("analyse", "compare") + FACTORED:
        tree, us, ls = analysis(n, c["s0"], c["s1"])
        fresh = dict(s2=tree, s3=pointers(us), s4=flat(us), s5=pointers(ls), s6=flat(ls))
        for s, l in fresh.items():
            c[s] = words(r, len(l)) if op == "analyse" else list(l)
        t = len(flat(us))
        if op in FACTORED:
            c["o"] = doubles(r, t)
        else:
            c["v"] = []
        d = t if op == "compare" else 0
    if op not in ("check", "check_pattern", "check_vector", "scale", "axpy", "forward", "transposed", "root", "sum"):
        c["w1"], c["w2"], c["w3"], c["x"] = words(r, need), words(r, need), words(r, need), doubles(r, need)
    return case(op, "paper", [m, n, d, e], c)


def one(v):
    return [0, 1], [0], [v]


def paper():
    """E1 to E12, sizes 0 and 1, and special values."""
    bare, low = ([0, 0], [], []), ([0, 2, 3], [0, 1, 1], [2.0, 1.0, 2.0])
    odd = [math.nan, math.inf, -math.inf, 0.0, -0.0, -1.0, 5e-324, 2.2e-308, 1.7e308]
    out = [exactly("analyse", 4, 4, Q), exactly("left", 4, 4, Q), exactly("up", 4, 4, Q), exactly("compare", 4, 4, Q)]
    out += [exactly("forward", 4, 4, L, more=dict(b=[2.0, 3.0, 5.0, 4.5])), exactly("transposed", 4, 4, L, more=dict(b=[10.0, 5.0, 5.0, 4.0]))]
    out += [exactly(o, 1, 1, a) for o in ("analyse",) + FACTORED for a in (one(2.0), bare)]
    out += [exactly(o, 2, 2, a) for o in ("analyse",) + FACTORED for a in (([0, 1, 2], [0, 0], [1.0, 1.0]), low)]
    out += [exactly("product", 1, 2, ([0, 1, 2], [0, 0], [1.0, 1.0]), 2, 1, ([0, 2], [0, 1], [1.0, -1.0])), exactly("sum", 1, 1, one(1.0), 1, 1, one(-1.0))]
    out += [case("root", "paper", [0, 0, 0, 0], dict(empty(), x=[x])) for x in odd + [of_bits(1), of_bits(0x400FFFFFFFFFFFFF)]]
    for v in odd:
        two = [0, 2, 4], [0, 1, 0, 1], [4.0, v, v, 4.0]
        out += [exactly(o, 1, 1, one(v)) for o in FACTORED] + [exactly(o, 2, 2, two) for o in FACTORED]
        out += [exactly(o, 2, 2, two, more=dict(b=[1.0, v])) for o in ("forward", "transposed")]
        out += [exactly("sparse", 2, 2, two, more=dict(s2=[1], b=[v])), exactly("sum", 2, 2, two, 2, 2, two), exactly("product", 2, 2, two, 2, 2, two)]
        out += [exactly("scale", 1, 1, one(v), more=dict(x=[-2.0])), exactly("transpose", 1, 1, one(v)), exactly("triplet", 1, 1, ([0], [0], [v]))]
        out += [exactly("axpy", 0, 2, ([], [1], [v]), more=dict(b=[v, v], x=[2.0, beta])) for beta in (0.0, -0.0, 1.0, math.nan)]
    return out + between() + bases(0) + bases(1)


def between():
    """Two numbers that apply at once: the lower is given. 7 before 8, 8 before 9, 9 before 11, 7 before 10, 7 before 9."""
    stray = ([0, 2, 3], [0, 1, 1], [-1.0, 1.0, 2.0])
    out = [exactly("left", 2, 2, stray)]
    for room in (0, 1):
        k = exactly("left", 2, 2, stray)
        k["slots"]["s2"][0] = 0
        k["slots"]["o"] = k["slots"]["o"][:2 - room]
        out.append(k)
    k = exactly("up", 1, 1, one(-1.0))
    k["slots"]["s4"] = [1]
    out.append(k)
    k = exactly("sparse", 1, 1, one(0.0), more=dict(s2=[0], b=[1.0]))
    k["slots"]["s5"], k["slots"]["o"] = [], []
    out.append(k)
    k = exactly("triplet", 1, 1, ([0, 0], [0, 0], [1.0, 2.0]))
    k["slots"]["s4"], k["slots"]["s5"], k["slots"]["o"] = [7, 7], [7], [7.0]
    out.append(k)
    k = exactly("triplet", 1, 1, ([0, 0], [0, 0], [1.0, 2.0]))
    k["slots"]["s4"], k["slots"]["s5"], k["slots"]["o"] = [7, 7], [7, 7], [7.0, 7.0]
    return out + [k]


def bases(n):
    """Each call on the size n by n."""
    a = ([0], [], []) if n == 0 else one(4.0) if n == 1 else Q
    at = ([], [], []) if n == 0 else ([0], [0], [4.0]) if n == 1 else (Q[1], [0, 0, 0, 1, 1, 2, 2, 3, 3, 3], Q[2])
    side = dict(b=[2.0] * n)
    out = [exactly(o, n, n, a) for o in ("check", "transpose", "analyse", "compare", "scale") + FACTORED]
    out += [exactly(o, n, n, a, more=side) for o in ("forward", "transposed")]
    out += [exactly("sparse", n, n, a, more=dict(s2=[0][:n], b=[2.0][:n])), exactly("triplet", n, n, at)]
    out += [exactly(o, n, n, a, n, n, a) for o in ("product", "sum")]
    out += [exactly("check_pattern", n, n, (a[0], a[1], [])), exactly("check_vector", 0, n, ([], list(range(n)), [1.0] * n))]
    return out + [exactly("axpy", 0, n, ([], list(range(n)), [1.0] * n), more=dict(b=[2.0] * n, x=[1.0, 1.0]))]


def boundaries():
    """Every call on Q with each slice one short, one long, and with its first and last element changed; dimensions at their maxima."""
    out = []
    for k in bases(4):
        for s in WORDS + VALUES:
            l = k["slots"][s]
            for changed in ([l[:-1], l + l[:1], [l[0] + 1] + l[1:], l[:-1] + [l[-1] + 1]] if l else [[1] if s in WORDS else [1.0]]):
                if all(x <= ROOT for x in changed if s in WORDS):
                    out.append(case(k["op"], "boundary", list(k["numbers"]), {t: list(changed) if t == s else list(m) for t, m in k["slots"].items()}))
        for q in range(4):
            for d in (k["numbers"][q] + 1, 65535, 65536):
                numbers = k["numbers"][:q] + [d] + k["numbers"][q + 1:]
                out.append(case(k["op"], "boundary", numbers, {t: list(m) for t, m in k["slots"].items()}))
    return out
