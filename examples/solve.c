/* Solves A x = b for the five-point matrix of a grid: assembles A from triplets, analyses its pattern, factors it in both ways,
   solves forward and then transposed, and looks at what A x - b is. */
#include <siwkatenor.h>
#include <stdio.h>
#include <stdlib.h>

enum { SIDE = 30, N = SIDE * SIDE, MOST = 5 * N };

static uint32_t rows[MOST], cols[MOST], p[N + 1], i[MOST];
static double vals[MOST], v[MOST], b[N], r[N];

/* The triplets of the grid's matrix: 4 on the diagonal, -1 to each neighbour. Their number. */
static size_t grid(void)
{
    size_t count = 0, k;
    for (k = 0; k < N; k++) {
        size_t at[5] = {k, k + 1, k - 1, k + SIDE, k - SIDE};
        int there[5] = {1, k % SIDE != SIDE - 1, k % SIDE != 0, k + SIDE < N, k >= SIDE}, d;
        for (d = 0; d < 5; d++)
            if (there[d]) {
                rows[count] = (uint32_t)at[d];
                cols[count] = (uint32_t)k;
                vals[count++] = d == 0 ? 4.0 : -1.0;
            }
    }
    return count;
}

/* The largest number in A x - right side, x being in b. */
static double residual(void)
{
    double most = 0;
    size_t j, q;
    for (j = 0; j < N; j++) r[j] = -(1.0 + (double)(j % 7));
    for (j = 0; j < N; j++)
        for (q = p[j]; q < p[j + 1]; q++) r[i[q]] += v[q] * b[j];
    for (j = 0; j < N; j++)
        if (!(r[j] <= most && -r[j] <= most)) most = r[j] < 0 ? -r[j] : r[j];
    return most;
}

int main(void)
{
    size_t count = grid(), need = siwkatenor_scratch_triplet(N, N, count), entries, j;
    uint32_t *w1 = malloc(need * sizeof *w1), *w2 = malloc(need * sizeof *w2), *w3 = malloc(need * sizeof *w3);
    double *x = malloc(need * sizeof *x);
    uint32_t *tree = malloc(N * sizeof *tree), *up = malloc((N + 1) * sizeof *up), *lp = malloc((N + 1) * sizeof *lp), *ui, *li;
    double *lx;
    int way;

    if (!w1 || !w2 || !w3 || !x || !tree || !up || !lp) return 1;
    printf("assembly %u\n", siwkatenor_from_triplet(N, N, rows, count, cols, count, vals, count, p, N + 1, i, MOST, v, MOST, w1, need, w2, need, w3, need, x, need));
    count = p[N];

    entries = siwkatenor_count_upper(N, p, i, w1, w2);
    ui = malloc(entries * sizeof *ui), li = malloc(entries * sizeof *li), lx = malloc(entries * sizeof *lx);
    if (!ui || !li || !lx) return 1;
    printf("analysis %u\n", siwkatenor_analyse(N, N, p, N + 1, i, count, tree, N, up, N + 1, ui, entries, lp, N + 1, li, entries, w1, need, w2, need, w3, need, x, need));
    printf("%u columns, %zu entries in A, %zu in L, %u of them in U\n", N, count, entries, up[N]);

    for (way = 0; way < 2; way++) {
        siwkatenor_factored f = way == 0
            ? siwkatenor_decompose_left_looking(N, N, p, N + 1, i, count, v, count, tree, N, up, N + 1, ui, entries, lp, N + 1, li, entries, lx, entries, w1, need, w2, need, w3, need, x, need)
            : siwkatenor_decompose_up_looking(N, N, p, N + 1, i, count, v, count, tree, N, up, N + 1, ui, entries, lp, N + 1, li, entries, lx, entries, w1, need, w2, need, w3, need, x, need);
        siwkatenor_solved forward, transposed;
        for (j = 0; j < N; j++) b[j] = 1.0 + (double)(j % 7);
        forward = siwkatenor_solve_lower_triangular(N, N, lp, N + 1, li, entries, lx, entries, b, N);
        transposed = siwkatenor_tr_solve_lower_triangular(N, N, lp, N + 1, li, entries, lx, entries, b, N);
        printf("%s %u, forward %u, transposed %u, residual %s\n", way == 0 ? "left" : "up", f.number, forward.number, transposed.number, residual() < 1e-11 ? "below 1e-11" : "TOO LARGE");
    }
    free(w1), free(w2), free(w3), free(x), free(tree), free(up), free(lp), free(ui), free(li), free(lx);
    return 0;
}
