/* Each call once on the matrix Q of docs/01-scope.md, with the numbers of its boundary examples where it has them. */
#include <siwkatenor.h>
#include <stdio.h>

enum { N = 4, COUNT = 10, ENTRIES = 8, ROOM = 26, NEED = 2 * (N + 1) + COUNT };

static uint32_t rows[COUNT] = {3, 1, 0, 2, 0, 3, 1, 3, 2, 0}, cols[COUNT] = {3, 3, 3, 2, 2, 1, 1, 0, 0, 0};
static double vals[COUNT] = {6.25, 3, 2, 5, 2, 3, 9, 2, 2, 4};
static uint32_t qp[N + 1], qi[COUNT], tree[N], up[N + 1], ui[ENTRIES], lp[N + 1], li[ENTRIES], w1[NEED], w2[NEED], w3[NEED], op[N + 1], oi[ROOM];
static double qv[COUNT], lx[ENTRIES], x[NEED], ov[ROOM];

#define SCRATCH w1, NEED, w2, NEED, w3, NEED, x, NEED
#define Q N, N, qp, N + 1, qi, COUNT, qv, COUNT
#define L N, N, lp, N + 1, li, ENTRIES, lx, ENTRIES
#define ANALYSIS tree, N, up, N + 1, ui, ENTRIES, lp, N + 1, li, ENTRIES

static void tell(const char *name, uint32_t number) { printf("%s %u:", name, number); }

static void list(const uint32_t *l, int n)
{
    int k;
    for (k = 0; k < n; k++) l[k] == SIWKATENOR_TREE_ROOT ? printf(" root") : printf(" %u", l[k]);
    printf(";");
}

static void reals(const double *l, int n)
{
    int k;
    for (k = 0; k < n; k++) printf(" %g", l[k]);
    printf("\n");
}

int main(void)
{
    double b[N] = {2, 3, 5, 4.5}, c[N] = {10, 5, 5, 4}, y[N] = {1, 1, 1, 1}, one = 3, two[2] = {1, 2};
    uint32_t row = 1, some[2] = {1, 3}, reached[N] = {SIWKATENOR_TREE_ROOT, SIWKATENOR_TREE_ROOT, SIWKATENOR_TREE_ROOT, SIWKATENOR_TREE_ROOT};

    tell("from_triplet", siwkatenor_from_triplet(N, N, rows, COUNT, cols, COUNT, vals, COUNT, qp, N + 1, qi, COUNT, qv, COUNT, SCRATCH));
    list(qp, N + 1), list(qi, COUNT), reals(qv, COUNT);
    printf("check_pattern %u, check %u\n", siwkatenor_check_pattern(N, N, qp, N + 1, qi, COUNT), siwkatenor_check(Q));
    tell("transpose", siwkatenor_transpose(Q, op, N + 1, oi, ROOM, ov, ROOM, SCRATCH));
    list(op, N + 1), list(oi, COUNT), reals(ov, COUNT);
    tell("sum", siwkatenor_sum(Q, Q, op, N + 1, oi, ROOM, ov, ROOM));
    list(op, N + 1), list(oi, (int)op[N]), reals(ov, (int)op[N]);
    printf("bound of the product %zu\n", siwkatenor_bound_product(qp, qi, COUNT));
    tell("product", siwkatenor_product(Q, Q, op, N + 1, oi, ROOM, ov, ROOM, SCRATCH));
    list(op, N + 1), list(oi, (int)op[N]), reals(ov, (int)op[N]);
    printf("entries of U %zu\n", siwkatenor_count_upper(N, qp, qi, w1, w2));
    tell("analyse", siwkatenor_analyse(N, N, qp, N + 1, qi, COUNT, ANALYSIS, SCRATCH));
    list(tree, N), list(up, N + 1), list(ui, ENTRIES), list(lp, N + 1), list(li, ENTRIES), printf("\n");
    printf("compare %u\n", siwkatenor_compare(N, N, qp, N + 1, qi, COUNT, ENTRIES, ANALYSIS, SCRATCH));
    tell("left", siwkatenor_decompose_left_looking(Q, ANALYSIS, lx, ENTRIES, SCRATCH).number), reals(lx, ENTRIES);
    tell("up", siwkatenor_decompose_up_looking(Q, ANALYSIS, lx, ENTRIES, SCRATCH).number), reals(lx, ENTRIES);
    tell("forward", siwkatenor_solve_lower_triangular(L, b, N).number), reals(b, N);
    tell("transposed", siwkatenor_tr_solve_lower_triangular(L, c, N).number), reals(c, N);
    tell("sparse", siwkatenor_solve_lower_triangular_cs(L, &row, 1, &one, 1, reached, N, b, N, SCRATCH).number), list(reached, N), reals(b, 2);
    printf("check_vector %u\n", siwkatenor_check_vector(N, some, 2, two, 2));
    tell("axpy_cs", siwkatenor_axpy_cs(N, 2, some, 2, two, 2, 3, y, N)), reals(y, N);
    tell("scale", siwkatenor_scale(Q, 0.5)), reals(qv, COUNT);
    printf("root %g, root_bits %016lX %016lX\n", siwkatenor_root(2.25), (unsigned long)siwkatenor_root_bits(1), (unsigned long)siwkatenor_root_bits(0x400FFFFFFFFFFFFF));
    return 0;
}
