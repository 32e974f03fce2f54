/* count: each operation of the library and of CXSparse once, on the five-point matrix of a 60 by 60 grid, between marks that the
   emulator's plugin sees. Writes the operations' names in the order of the marks. */
#include <cs.h>
#include <siwkatenor.h>
#include <stdio.h>
#include <stdlib.h>
#include <unistd.h>

enum { SIDE = 60, N = SIDE * SIDE, MOST = 5 * N, NEED = 2 * (N + 1) + MOST, ROOM = 25 * N };

static uint32_t rows[MOST], cols[MOST], p[N + 1], i[MOST], tree[N], up[N + 1], lp[N + 1], w1[NEED], w2[NEED], w3[NEED], op[N + 1], oi[ROOM];
static double vals[MOST], v[MOST], b[N], x[NEED], ov[ROOM];
static int marks;

/* Each mark is a call that fails; the plugin counts the instructions up to it. */
static void mark(void) { close(-1000 - marks++); }

#define COUNT(name, ours, theirs) \
    do { \
        mark(), (void)(ours), mark(), (void)(theirs), mark(); \
        printf("%s\n", name); \
    } while (0)
#define SCRATCH w1, NEED, w2, NEED, w3, NEED, x, NEED
#define A p, N + 1, i, count, v, count

static size_t grid(void)
{
    size_t count = 0, k;
    for (k = 0; k < N; k++) {
        size_t at[5] = {k - SIDE, k - 1, k, k + 1, k + SIDE};
        int there[5] = {k >= SIDE, k % SIDE != 0, 1, k % SIDE != SIDE - 1, k + SIDE < N}, d;
        for (d = 0; d < 5; d++)
            if (there[d]) rows[count] = (uint32_t)at[d], cols[count] = (uint32_t)k, vals[count++] = d == 2 ? 4.0 : -1.0;
    }
    return count;
}

int main(void)
{
    size_t count = grid(), t, k;
    uint32_t *ui, *li;
    double *lx;
    cs_di triplets = {(int)count, N, N, (int *)cols, (int *)rows, vals, (int)count}, *a = NULL, *r;
    cs_dis *s = NULL;
    cs_din *f = NULL;
    COUNT("assembly", siwkatenor_from_triplet(N, N, rows, count, cols, count, vals, count, p, N + 1, i, MOST, v, MOST, SCRATCH), a = cs_di_compress(&triplets));
    t = siwkatenor_count_upper(N, p, i, w1, w2);
    ui = malloc(t * 4), li = malloc(t * 4), lx = malloc(t * 8);
    COUNT("analysis", siwkatenor_analyse(N, N, p, N + 1, i, count, tree, N, up, N + 1, ui, t, lp, N + 1, li, t, SCRATCH), s = cs_di_schol(0, a));
    COUNT("left", siwkatenor_decompose_left_looking(N, N, A, tree, N, up, N + 1, ui, t, lp, N + 1, li, t, lx, t, SCRATCH), f = cs_di_chol(a, s));
    COUNT("up", siwkatenor_decompose_up_looking(N, N, A, tree, N, up, N + 1, ui, t, lp, N + 1, li, t, lx, t, SCRATCH), f = cs_di_chol(a, s));
    COUNT("number-8", siwkatenor_compare(N, N, p, N + 1, i, count, t, tree, N, up, N + 1, ui, t, lp, N + 1, li, t, SCRATCH), 0);
    for (k = 0; k < N; k++) b[k] = 1;
    COUNT("forward", siwkatenor_solve_lower_triangular(N, N, lp, N + 1, li, t, lx, t, b, N), cs_di_lsolve(f->L, b));
    COUNT("transposed", siwkatenor_tr_solve_lower_triangular(N, N, lp, N + 1, li, t, lx, t, b, N), cs_di_ltsolve(f->L, b));
    COUNT("product", siwkatenor_product(N, N, A, N, N, A, op, N + 1, oi, ROOM, ov, ROOM, SCRATCH), r = cs_di_multiply(a, a));
    COUNT("sum", siwkatenor_sum(N, N, A, N, N, A, op, N + 1, oi, ROOM, ov, ROOM), r = cs_di_add(a, a, 1, 1));
    COUNT("transpose", siwkatenor_transpose(N, N, A, op, N + 1, oi, ROOM, ov, ROOM, SCRATCH), r = cs_di_transpose(a, 1));
    return r == NULL;
}
