"""The Rust's answers, where document 01 compares with it: valid inputs answered 0, 10 or 11, fresh analyses, no NaN pivot."""
import collections
import math
import subprocess

from model import ROOT, bits

NAMES = dict(root="sqrt", scale="scale", axpy="axpy", forward="fwd", transposed="tr", transpose="transpose", triplet="triplet", sparse="sfwd",
             product="mul", sum="add", analyse="analyse", left="left", up="up", sums="cumsum", walk="column")


def hexes(l):
    return [f"{bits(x):016x}" for x in l]


def mat(m, n, p, i, v):
    return [m, n, len(i)] + p + i + hexes(v)


def dense(l):
    return [len(l)] + hexes(l)


def line(k):
    """The case as the Rust's driver reads it."""
    c, (m, n, d, e), op = k["slots"], k["numbers"], k["op"]
    a = lambda: mat(m, n, c["s0"], c["s1"], c["v"])
    if op == "root":
        return hexes(c["x"][:1])
    if op == "sums":
        return [len(c["s0"])] + c["s0"]
    if op == "walk":
        return mat(max(c["s1"], default=0) + 1, 1, [0, len(c["s1"])], c["s1"], c["v"]) + [0]
    if op == "axpy":
        return dense(c["b"]) + hexes(c["x"][:1]) + [n, len(c["s1"])] + c["s1"] + hexes(c["v"]) + hexes(c["x"][1:2])
    if op == "triplet":
        return [m, n, len(c["s0"])] + c["s0"] + c["s1"] + hexes(c["v"])
    if op == "analyse":
        return mat(m, n, c["s0"], c["s1"], [1.0] * len(c["s1"]))
    if op in ("forward", "transposed"):
        return a() + dense(c["b"])
    if op == "sparse":
        return a() + [n, len(c["s2"])] + c["s2"] + hexes(c["b"])
    if op in ("product", "sum"):
        return a() + mat(d, e, c["s2"], c["s3"], c["b"])
    if op == "scale":
        return a() + hexes(c["x"][:1])
    return a()


def same(a, b):
    nan = lambda h: int(h, 16) & 0x7FFFFFFFFFFFFFFF > 0x7FF0000000000000
    return len(a) == len(b) and all(x == y or (nan(x) and nan(y)) for x, y in zip(a, b))


def wanted(k, after, answer):
    """What the Rust should say: words and values by name."""
    c, op, (m, n, d, e) = after["slots"], k["op"], k["numbers"]
    number, column, pivot = answer
    if number == 10:
        return {"col": [str(column)]}, {}
    if number == 11:
        return {"col": [str(column)]}, {"pivot": hexes([pivot])}
    if op == "root":
        return {}, {"v": hexes([pivot])}
    if op == "sums":
        return {"sum": [str(column)], "a": [str(x) for x in c["s0"]], "b": [str(x) for x in c["s1"]]}, {}
    if op == "walk":
        rows, values = list(c["s1"]), list(c["v"])
        if n < len(rows) or column != ROOT:
            rows[n:n + 1], values[n:n + 1] = [column], [pivot]  # the step's entry in its place; at the end there is none
        return {"i": [str(x) for x in rows]}, {"v": hexes(values)}
    if op == "analyse":
        t = c["s3"][n]
        parts = dict(tree=c["s2"][:n], up=c["s3"][:n + 1], ui=c["s4"][:t], lp=c["s5"][:n + 1], li=c["s6"][:t])
        return {name: ["-" if x == ROOT else str(x) for x in l] for name, l in parts.items()}, {}
    if op in ("left", "up"):
        t = c["s3"][n]
        return {}, {"v": hexes(c["o"][:t])}
    if op in ("forward", "transposed"):
        return {}, {"b": hexes(c["b"])}
    if op == "axpy":
        return {}, {"y": hexes(c["b"])}
    if op == "scale":
        return {}, {"v": hexes(c["v"])}
    if op == "sparse":
        t = after["reached"]
        return {"i": [str(x) for x in c["s5"][:t]]}, {"v": hexes(c["o"][:t])}
    cols = {"transpose": m, "triplet": n, "product": e, "sum": e}[op]
    t = c["s4"][cols]
    return {"p": [str(x) for x in c["s4"][:cols + 1]], "i": [str(x) for x in c["s5"][:t]]}, {"v": hexes(c["o"][:t])}


def reached(k):
    c, n = k["slots"], k["numbers"][1]
    seen, todo = set(), list(c["s2"])
    while todo:
        j = todo.pop()
        if j not in seen:
            seen.add(j)
            todo += [i for i in c["s1"][c["s0"][j]:c["s0"][j + 1]] if i > j]
    return len(seen)


def fit(k, answer):
    """Whether 01 compares this case with the Rust."""
    if k["op"] not in NAMES or answer[0] not in (0, 10, 11) or (answer[0] == 11 and answer[2] != answer[2]):
        return False
    if k["op"] == "triplet" and any(math.copysign(1, v) < 0 and v == 0 for v in k["slots"]["v"]):
        return False  # docs/DIFFERENCES.md: the Rust's assembly turns a -0.0 into +0.0
    if k["op"] == "sums" and (len(k["slots"]["s0"]) != len(k["slots"]["s1"]) or sum(k["slots"]["s0"]) >= 2**32):
        return False  # docs/DIFFERENCES.md: running sums of unlike lengths, or past the index type
    if k["op"] == "walk" and k["numbers"][1] > len(k["slots"]["s1"]):
        return False  # a position that no walk of the Rust's has
    if k["op"] in ("root", "scale", "axpy") and len(k["slots"]["x"]) < (2 if k["op"] == "axpy" else 1):
        return False
    return True


def compare(given, after, answers, program):
    """How many of each call were compared, and those that differ."""
    counts, differs = collections.Counter(), []
    if not program:
        return counts, differs
    chosen = [(g, k, a) for g, k, a in zip(given, after, answers) if fit(g, a)]
    text = "".join(f"{q} {NAMES[g['op']]} {' '.join(map(str, line(g)))}\n" for q, (g, _, _) in enumerate(chosen))
    said = subprocess.run([program], input=text, stdout=subprocess.PIPE, text=True).stdout.splitlines()
    for (g, k, a), got in zip(chosen, said):
        counts[g["op"]] += 1
        if g["op"] == "sparse":
            k["reached"] = reached(g)
        words, values = wanted(g, k, a)
        fields = dict(f.split("=", 1) for f in got.split() if "=" in f)
        split = lambda f: [x for x in fields.get(f, "").split(",") if x]
        if ("refused" in got) != (a[0] != 0) or "panic" in got or any(split(f) != l for f, l in words.items()) or not all(same(split(f), l) for f, l in values.items()):
            differs.append((g, (words, values), got))
    if len(said) != len(chosen):
        differs.append((chosen[len(said)][0], "an answer", "none"))
    return counts, differs
