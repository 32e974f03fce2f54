/* Every number that a call can answer, shown once or twice on small matrices, with what it leaves behind. The matrix Q is the one
   of the examples in docs/01-scope.md: rows 0 2 3, 1 3, 0 2, 0 1 3; values 4 2 2, 9 3, 2 5, 2 3 6.25. */
#include <siwkatenor.h>
#include <stdio.h>

enum { N = 4, COUNT = 10, ENTRIES = 8, NEED = N + 1, LONG = 20 };

static uint32_t qp[N + 1] = {0, 3, 5, 7, 10}, qi[COUNT] = {0, 2, 3, 1, 3, 0, 2, 0, 1, 3};
static double qv[COUNT] = {4, 2, 2, 9, 3, 2, 5, 2, 3, 6.25};
static uint32_t tree[N], up[N + 1], ui[ENTRIES], lp[N + 1], li[ENTRIES], w1[LONG], w2[LONG], w3[LONG], op[N + 1], oi[COUNT];
static double lx[ENTRIES], x[LONG], ov[COUNT];

#define SCRATCH(n) w1, n, w2, n, w3, n, x, n
#define ANALYSIS tree, N, up, N + 1, ui, ENTRIES, lp, N + 1, li, ENTRIES

/* Scratch and outputs full of sevens. */
static void soil(void)
{
    int k;
    for (k = 0; k < LONG; k++) w1[k] = w2[k] = w3[k] = 7, x[k] = 7;
    for (k = 0; k < COUNT; k++) oi[k] = 7, ov[k] = 7;
    for (k = 0; k <= N; k++) op[k] = 7;
    for (k = 0; k < ENTRIES; k++) lx[k] = 7;
}

/* What came of them: the scratch, its first need elements; the outputs. */
static const char *left_behind(int need)
{
    int k, zeros = 0, sevens = 0, outs = 0, blank = 0;
    for (k = 0; k < LONG; k++) {
        int z = w1[k] == 0 && w2[k] == 0 && w3[k] == 0 && x[k] == 0, s = w1[k] == 7 && w2[k] == 7 && w3[k] == 7 && x[k] == 7;
        zeros += k < need && z;
        sevens += s;
    }
    for (k = 0; k < COUNT; k++) outs += oi[k] == 7 && ov[k] == 7;
    for (k = 0; k < ENTRIES; k++) outs += lx[k] == 7, blank += lx[k] == 0;
    if (sevens == LONG && outs == COUNT + ENTRIES) return "nothing changed";
    if (zeros != need || sevens != LONG - need) return "WRONG SCRATCH";
    if (outs == COUNT + ENTRIES) return "outputs as they were, scratch zeroed";
    if (blank == ENTRIES) return "L is zeros, scratch zeroed";
    return "outputs written, scratch zeroed";
}

static void tell(uint32_t number, const char *what, int need) { printf("%2u %s: %s\n", number, what, left_behind(need)); }

/* The transpose of a changed Q: n columns, one of Q's numbers replaced, scratch and room as said. */
static void transpose(const char *what, size_t n, uint32_t *place, uint32_t other, size_t values, size_t need, size_t room)
{
    uint32_t keep = *place, number;
    soil();
    *place = other;
    number = siwkatenor_transpose(N, n, qp, N + 1, qi, COUNT, qv, values, op, N + 1, oi, room, ov, room, SCRATCH(need));
    *place = keep;
    tell(number, what, NEED);
}

/* A factoring of Q with the value at place replaced, and the analysis with a changed tree. */
static void factor(const char *what, int place, double value, uint32_t parent)
{
    double keep = qv[place];
    uint32_t old = tree[0];
    siwkatenor_factored f;
    soil();
    qv[place] = value, tree[0] = parent;
    f = siwkatenor_decompose_up_looking(N, N, qp, N + 1, qi, COUNT, qv, COUNT, ANALYSIS, lx, ENTRIES, SCRATCH(NEED));
    qv[place] = keep, tree[0] = old;
    tell(f.number, what, NEED);
    if (f.number == 11 && f.pivot != f.pivot) printf("   column %u, pivot NaN\n", f.column);
    else if (f.number == 11) printf("   column %u, pivot %g\n", f.column, f.pivot);
}

static void solve(void)
{
    static const uint32_t p[3] = {0, 2, 3}, i[3] = {0, 1, 1};
    static const double v[3] = {0, 1, -0.0};
    double b[2] = {3, 5};
    siwkatenor_solved s = siwkatenor_solve_lower_triangular(2, 2, p, 3, i, 3, v, 3, b, 2);
    printf("%2u forward, column %u: b is %g %g\n", s.number, s.column, b[0], b[1]);
    s = siwkatenor_tr_solve_lower_triangular(2, 2, p, 3, i, 3, v, 3, b, 2);
    printf("%2u transposed, column %u: b is %g %g\n", s.number, s.column, b[0], b[1]);
}

static void below(void)
{
    static const uint32_t p[3] = {0, 2, 3}, i[3] = {0, 1, 1}, t[2] = {SIWKATENOR_TREE_ROOT, SIWKATENOR_TREE_ROOT}, one[3] = {0, 1, 2}, r[2] = {0, 1};
    static const double v[3] = {1, 1, 1};
    soil();
    tell(siwkatenor_decompose_left_looking(2, 2, p, 3, i, 3, v, 3, t, 2, one, 3, r, 2, one, 3, r, 2, lx, 2, SCRATCH(3)).number, "a row below the diagonal with no place in L", 3);
}

static void twice(void)
{
    static const uint32_t rows[3] = {1, 0, 1}, cols[3] = {0, 0, 0};
    static const double vals[3] = {1, 2, 3};
    size_t need = siwkatenor_scratch_triplet(2, 2, 3);
    soil();
    tell(siwkatenor_from_triplet(2, 2, rows, 3, cols, 3, vals, 3, op, 3, oi, 3, ov, 3, SCRATCH(need)), "a place given twice", (int)need);
}

int main(void)
{
    transpose("done", N, qp, 0, COUNT, NEED, COUNT);
    transpose("65,536 columns", 65536, qp, 0, COUNT, NEED, COUNT);
    transpose("one value short", N, qp, 0, COUNT - 1, NEED, COUNT);
    transpose("the pointers fall", N, qp + 1, 6, COUNT, NEED, COUNT);
    transpose("a row 4 of 4", N, qi + 2, 4, COUNT, NEED, COUNT);
    transpose("a row twice in a column", N, qi + 1, 0, COUNT, NEED, COUNT);
    transpose("scratch one short", N, qp, 0, COUNT, NEED - 1, COUNT);
    transpose("room one short", N, qp, 0, COUNT, NEED, COUNT - 1);
    if (siwkatenor_analyse(N, N, qp, N + 1, qi, COUNT, ANALYSIS, SCRATCH(NEED)) != 0) return 1;
    factor("factored", 0, 4, tree[0]);
    factor("the parent of 0 said to be 3", 0, 4, 3);
    below();
    twice();
    solve();
    factor("a negative diagonal", 3, -9, tree[0]);
    factor("a NaN", 0, 0.0 / 0.0, tree[0]);
    return 0;
}
