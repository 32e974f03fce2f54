"""Document 01 in Python, call by call: what each answers, and what every lent slice then holds. It shares no line with the
library or with the Rust; Python's floats are IEEE doubles, and math.sqrt rounds to nearest."""
import math
import struct

MOST, ENTRIES, ROOT = 65535, 4194304, 4294967295
WORDS = ["s0", "s1", "s2", "s3", "s4", "s5", "s6", "w1", "w2", "w3"]
VALUES = ["v", "b", "o", "x"]
OPS = dict(root=0, check=1, check_pattern=2, check_vector=3, scale=4, axpy=5, forward=6, transposed=7, sums=8, walk=9,
           transpose=10, triplet=11, sparse=12, product=13, sum=14, analyse=16, compare=17, left=18, up=19)


def bits(x):
    return 0x7FF8000000000000 if x != x else struct.unpack("<Q", struct.pack("<d", x))[0]


def of_bits(b):
    return struct.unpack("<d", struct.pack("<Q", b))[0]


def div(a, b):
    if b != 0 or a != a:
        return a / b
    if a == 0 or b != b:
        return math.nan
    return math.copysign(math.inf, a) * math.copysign(1.0, b)


class Refused(Exception):
    def __init__(self, number, column=0, pivot=0.0):
        self.answer = (number, column, pivot)


def first_of(*judgements):
    """Numbers 1 to 5, each over all operands before the next."""
    for k in range(1, 6):
        if any(j[k - 1] for j in judgements):
            raise Refused(k)


def of_pattern(m, n, p, i, square=False):
    entries = len(i)
    one = m > MOST or n > MOST or entries > ENTRIES
    two = len(p) != n + 1 or (square and m != n)
    three = not p or p[0] != 0 or p[-1] != entries or any(a > b for a, b in zip(p, p[1:]))
    four = any(r >= m for r in i)
    five = False
    if not three and len(p) == n + 1:
        five = any(any(a >= b for a, b in zip(c, c[1:])) for c in columns(n, p, i))
    return [one, two, three, four, five]


def of_matrix(m, n, p, i, v, square=False):
    j = of_pattern(m, n, p, i, square)
    j[1] = j[1] or len(i) != len(v)
    return j


def of_vector(n, i, v):
    return [n > MOST or len(i) > ENTRIES, len(i) != len(v), False, any(r >= n for r in i), any(a >= b for a, b in zip(i, i[1:]))]


def two(bad):
    return [False, bad, False, False, False]


def columns(n, p, l):
    return [l[p[j]:p[j + 1]] for j in range(n)]


def pairs(n, p, i, v):
    return [list(zip(a, b)) for a, b in zip(columns(n, p, i), columns(n, p, v))]


def narrow(c, need):
    if any(len(c[w]) < need for w in ("w1", "w2", "w3", "x")):
        raise Refused(6)
    for w in ("w1", "w2", "w3"):
        c[w][:need] = [0] * need
    c["x"][:need] = [0.0] * need


def write(c, **outs):
    """7 where an output is short; else what is written."""
    if any(len(l) > ENTRIES or len(c[o]) < len(l) for o, l in outs.items()):
        raise Refused(7)
    for o, l in outs.items():
        c[o][:len(l)] = l


def matrix_of(cols):
    p = [0]
    for c in cols:
        p.append(p[-1] + len(c))
    return p, [r for c in cols for r, _ in c], [x for c in cols for _, x in c]


# ---- the analysis
def tree_of(n, cols):
    ancestor, parent = [None] * n, [ROOT] * n
    for k in range(n):
        for i in cols[k]:
            while i < k:
                noted, ancestor[i] = ancestor[i], k
                if noted is None:
                    parent[i] = k
                    break
                i = noted
    return parent


def analysis(n, p, i):
    cols = columns(n, p, i)
    tree, us = tree_of(n, cols), []
    for k in range(n):
        u = []
        for r in cols[k]:
            path = []
            while r <= k and r not in u and r not in path:
                path.append(r)
                r = tree[r]
            u = path + u
        us.append(u)
    ls = [[k for k in range(n) if j in us[k]] for j in range(n)]
    return tree, us, ls


def pointers(cols):
    p = [0]
    for c in cols:
        p.append(p[-1] + len(c))
    return p


def flat(cols):
    return [x for c in cols for x in c]


# ---- the factorings
def left_of(n, a, us, ls):
    done = []
    for k in range(n):
        x = [0.0] * n
        for r, v in a[k]:
            if r >= k:
                x[r] = v
        for j in us[k]:
            if j < k:
                f = -done[j][ls[j].index(k)]
                for z, l in zip(ls[j], done[j]):
                    if z >= k:
                        x[z] = x[z] + l * f
        if not x[k] > 0:
            raise Refused(11, k, x[k])
        d = math.sqrt(x[k])
        done.append([div(x[r], d) for r in ls[k]])
    return done


def up_of(n, a, us, ls):
    rows = [{} for _ in range(n)]
    for k in range(n):
        x = [0.0] * n
        for r, v in a[k]:
            if r <= k:
                x[r] = v
        pivot, x[k] = x[k], 0.0
        for j in us[k]:
            if j < k:
                t = div(x[j], rows[j][j])
                x[j] = 0.0
                for r in sorted(rows[j]):
                    if j < r < k:
                        x[r] = x[r] - rows[j][r] * t
                pivot = pivot - t * t
                rows[j][k] = t
        if not pivot > 0:
            raise Refused(11, k, pivot)
        rows[k][k] = math.sqrt(pivot)
    return [[rows[j][r] for r in ls[j]] for j in range(n)]


def starts(l, xs):
    return l[:len(xs)] == xs


def judge_factor(c, m, n, room, values):
    j = of_matrix(m, n, c["s0"], c["s1"], c["v"], True) if values else of_pattern(m, n, c["s0"], c["s1"], True)
    first_of(j)
    narrow(c, max(m, n) + 1)
    tree, us, ls = analysis(n, c["s0"], c["s1"])
    t = len(flat(us))
    if t > ENTRIES or room < t:
        raise Refused(7)
    fresh = dict(s2=tree, s3=pointers(us), s4=flat(us), s5=pointers(ls), s6=flat(ls))
    if not all(starts(c[s], l) for s, l in fresh.items()):
        raise Refused(8)
    return us, ls, t


def factor(c, m, n, engine):
    us, ls, t = judge_factor(c, m, n, len(c["o"]), True)
    if engine == "left":
        for k, col in enumerate(columns(n, c["s0"], c["s1"])):
            if any(i > k and i not in ls[k] for i in col):
                raise Refused(9)
    a = pairs(n, c["s0"], c["s1"], c["v"])
    try:
        l = flat((left_of if engine == "left" else up_of)(n, a, us, ls))
    except Refused:
        c["o"][:t] = [0.0] * t
        raise
    c["o"][:t] = l


# ---- the solves
def diagonal(j, col):
    return next((v for i, v in col if i == j), 0.0)


def forward_at(x, j, col):
    x[j] = div(x[j], diagonal(j, col))
    for i, v in col:
        if i > j:
            x[i] = x[i] - x[j] * v


def dense(c, m, n, back):
    first_of(of_matrix(m, n, c["s0"], c["s1"], c["v"], True), two(len(c["b"]) != n))
    a = pairs(n, c["s0"], c["s1"], c["v"])
    lacking = [j for j in range(n) if diagonal(j, a[j]) == 0]
    if lacking:
        raise Refused(10, lacking[-1] if back else lacking[0])
    b = c["b"]
    for j in reversed(range(n)) if back else range(n):
        if back:
            for i, v in a[j]:
                if i > j:
                    b[j] = b[j] - v * b[i]
            b[j] = div(b[j], diagonal(j, a[j]))
        else:
            forward_at(b, j, a[j])


def sparse(c, m, n):
    first_of(of_matrix(m, n, c["s0"], c["s1"], c["v"], True), of_vector(m, c["s2"], c["b"]))
    narrow(c, max(m, n) + 1)
    a = pairs(n, c["s0"], c["s1"], c["v"])
    reached, todo = set(), list(c["s2"])
    while todo:
        j = todo.pop()
        if j not in reached:
            reached.add(j)
            todo += [i for i, _ in a[j] if i > j]
    x = [0.0] * n
    for i, v in zip(c["s2"], c["b"]):
        x[i] = v
    rows = sorted(reached)
    if len(rows) > ENTRIES or len(c["s5"]) < len(rows) or len(c["o"]) < len(rows):
        raise Refused(7)
    for j in rows:
        if diagonal(j, a[j]) == 0:
            raise Refused(10, j)
    for j in rows:
        forward_at(x, j, a[j])
    write(c, s5=rows, o=[x[j] for j in rows])


# ---- the other operations
def transpose(c, m, n):
    first_of(of_matrix(m, n, c["s0"], c["s1"], c["v"]))
    narrow(c, max(m, n) + 1)
    rows = [[] for _ in range(m)]
    for j, col in enumerate(pairs(n, c["s0"], c["s1"], c["v"])):
        for r, v in col:
            rows[r].append((j, v))
    p, i, v = matrix_of(rows)
    write(c, s4=p, s5=i, o=v)


def triplet(c, m, n):
    r, k, v = c["s0"], c["s1"], c["v"]
    first_of([m > MOST or n > MOST or len(r) > ENTRIES, len(r) != len(k) or len(r) != len(v), False,
              any(x >= m for x in r) or any(x >= n for x in k), False])
    narrow(c, 2 * (max(m, n) + 1) + len(r))
    if len(c["s4"]) < n + 1 or len(c["s5"]) < len(r) or len(c["o"]) < len(r):
        raise Refused(7)
    places = {}
    for a, b, x in zip(r, k, v):
        if (a, b) in places:
            raise Refused(9)
        places[a, b] = x
    p, i, x = matrix_of([[(a, places[a, j]) for a in sorted(a for a, b in places if b == j)] for j in range(n)])
    write(c, s4=p, s5=i, o=x)


def product(c, m, n, bm, bn):
    first_of(of_matrix(m, n, c["s0"], c["s1"], c["v"]), of_matrix(bm, bn, c["s2"], c["s3"], c["b"]), two(n != bm))
    narrow(c, max(m, n, bm, bn) + 1)
    a, out = pairs(n, c["s0"], c["s1"], c["v"]), []
    for col in pairs(bn, c["s2"], c["s3"], c["b"]):
        w = [0.0] * m
        for i, beta in col:
            for k, v in a[i]:
                w[k] = w[k] + v * beta
        out.append([(k, x) for k, x in enumerate(w) if x != 0])
    p, i, v = matrix_of(out)
    write(c, s4=p, s5=i, o=v)


def sum_of(c, m, n, bm, bn):
    first_of(of_matrix(m, n, c["s0"], c["s1"], c["v"]), of_matrix(bm, bn, c["s2"], c["s3"], c["b"]), two(m != bm or n != bn))
    out = []
    for a, b in zip(pairs(n, c["s0"], c["s1"], c["v"]), pairs(bn, c["s2"], c["s3"], c["b"])):
        w = {k: v * 1.0 for k, v in a}
        for k, v in b:
            w[k] = w[k] + v * 1.0 if k in w else v * 1.0
        out.append(sorted(w.items(), key=lambda e: e[0]))
    p, i, v = matrix_of(out)
    write(c, s4=p, s5=i, o=v)


def axpy(c, n):
    first_of(of_vector(n, c["s1"], c["v"]), two(len(c["b"]) != n))
    alpha, beta = (c["x"] + [0.0, 0.0])[:2] if len(c["x"]) > 1 else ((c["x"] + [0.0])[0], 0.0)
    y = c["b"]
    if beta != 0:
        y[:] = [e * beta for e in y]
    for i, v in zip(c["s1"], c["v"]):
        y[i] = alpha * v if beta == 0 else y[i] + alpha * v


def scale(c, m, n):
    first_of(of_matrix(m, n, c["s0"], c["s1"], c["v"]))
    s = (c["x"] + [0.0])[0]
    c["v"][:] = [e * s for e in c["v"]]


def sums(a, b):
    total = 0
    for k in range(min(len(a), len(b))):
        a[k], b[k], total = total, total, (total + a[k]) % 2**32
    return total


def walk(curr, i, v, out):
    """One step: number, row and value of the entry, or the end; then the position and how many are left, into out."""
    given = list(zip(i, v)) if len(i) == len(v) else []
    entry = given[curr] if curr < len(given) else (ROOT, 0.0)
    after = curr + 1 if curr < len(given) else curr
    out[:2] = [after, max(0, len(given) - after)][:len(out)]
    return 0 if len(i) == len(v) else 2, entry[0], entry[1]


def run(case):
    """The answer (number, column, pivot); the case's slices are left as the call leaves them."""
    c, (m, n, d, e) = case["slots"], case["numbers"]
    name = case["op"]
    try:
        if name == "root":
            x = (c["x"] + [0.0])[0]
            return 0, 0, x if x == 0 else (math.sqrt(x) if x > 0 else math.nan)
        if name == "check":
            first_of(of_matrix(m, n, c["s0"], c["s1"], c["v"]))
        elif name == "check_pattern":
            first_of(of_pattern(m, n, c["s0"], c["s1"]))
        elif name == "check_vector":
            first_of(of_vector(n, c["s1"], c["v"]))
        elif name == "analyse":
            first_of(of_pattern(m, n, c["s0"], c["s1"], True))
            narrow(c, max(m, n) + 1)
            tree, us, ls = analysis(n, c["s0"], c["s1"])
            write(c, s2=tree, s3=pointers(us), s4=flat(us), s5=pointers(ls), s6=flat(ls))
        elif name == "compare":
            judge_factor(c, m, n, d, False)
        elif name == "sums":
            return 0, sums(c["s0"], c["s1"]), 0.0
        elif name == "walk":
            return walk(n, c["s1"], c["v"], c["s0"])
        elif name in ("left", "up"):
            factor(c, m, n, name)
        elif name in ("forward", "transposed"):
            dense(c, m, n, name == "transposed")
        elif name == "sparse":
            sparse(c, m, n)
        elif name == "product":
            product(c, m, n, d, e)
        elif name == "sum":
            sum_of(c, m, n, d, e)
        elif name == "axpy":
            axpy(c, n)
        else:
            {"scale": scale, "transpose": transpose, "triplet": triplet}[name](c, m, n)
        return 0, 0, 0.0
    except Refused as r:
        return r.answer


# ---- the form of a case: FORM.md
def encode(case):
    c = case["slots"]
    head = [OPS[case["op"]]] + case["numbers"] + [0] + [len(c[s]) for s in WORDS + VALUES]
    return struct.pack("<20I", *head) + body(c)


def body(c):
    return b"".join(struct.pack(f"<{len(c[s])}I", *c[s]) for s in WORDS) + b"".join(struct.pack(f"<{len(c[s])}Q", *map(bits, c[s])) for s in VALUES)


def encode_answer(answer, c):
    return struct.pack("<2IQ", answer[0], answer[1], bits(answer[2])) + body(c)
