/* The maxima: 65,535 columns are served and 65,536 refused; so are 4,194,304 entries and one more, stored or needed; room that is
   exactly enough is taken and one element less refused. */
#include <siwkatenor.h>
#include <stdio.h>
#include <stdlib.h>

enum { MOST = SIWKATENOR_MAX_DIMENSION, PAST = MOST + 1, FULL = SIWKATENOR_MAX_ENTRIES, OVER = FULL + 1, WIDE = 2 * PAST + MOST };

static uint32_t *p, *i, *tree, *up, *ui, *lp, *li, *w1, *w2, *w3, *op, *oi;
static double *v, *lx, *x, *ov;

static uint32_t *numbers(size_t n) { return malloc(n * sizeof(uint32_t)); }
static double *values(size_t n) { return malloc(n * sizeof(double)); }

static int lend(void)
{
    p = numbers(PAST + 1), i = numbers(OVER), v = values(OVER);
    tree = numbers(PAST), up = numbers(PAST + 1), ui = numbers(OVER), lp = numbers(PAST + 1), li = numbers(OVER), lx = values(OVER);
    w1 = numbers(WIDE), w2 = numbers(WIDE), w3 = numbers(WIDE), x = values(WIDE);
    op = numbers(PAST + 1), oi = numbers(OVER), ov = values(OVER);
    return p && i && v && tree && up && ui && lp && li && lx && w1 && w2 && w3 && x && op && oi && ov;
}

#define SCRATCH w1, PAST, w2, PAST, w3, PAST, x, PAST

/* n columns with 4 on the diagonal; column k > 0 stores row 0 too where k < dense, else where it is linked row k - 1. The entries. */
static size_t chain(size_t n, size_t dense, int linked)
{
    size_t k, count = 0;
    for (k = 0; k < n; k++) {
        p[k] = (uint32_t)count;
        if (k > 0 && (k < dense || linked)) i[count] = k < dense ? 0 : (uint32_t)(k - 1), v[count++] = -1;
        i[count] = (uint32_t)k, v[count++] = 4;
    }
    p[n] = (uint32_t)count;
    return count;
}

static uint32_t analyse(size_t n, size_t count, size_t room)
{
    return siwkatenor_analyse(n, n, p, n + 1, i, count, tree, n, up, n + 1, ui, room, lp, n + 1, li, room, SCRATCH);
}

static siwkatenor_factored factor(size_t n, size_t count, size_t entries, size_t room)
{
    return siwkatenor_decompose_up_looking(n, n, p, n + 1, i, count, v, count, tree, n, up, n + 1, ui, entries, lp, n + 1, li, entries, lx, room, SCRATCH);
}

static void columns(void)
{
    size_t count = chain(MOST, 0, 1), entries = siwkatenor_count_upper(MOST, p, i, w1, w2), k;
    siwkatenor_factored f;
    siwkatenor_solved s;
    printf("65,535 columns, %zu entries of U\n", entries);
    printf("analysis with room for all but one %u, for all %u\n", analyse(MOST, count, entries - 1), analyse(MOST, count, entries));
    f = factor(MOST, count, entries, entries - 1);
    printf("up with room for all but one %u", f.number);
    f = factor(MOST, count, entries, entries);
    printf(", for all %u\n", f.number);
    for (k = 0; k < MOST; k++) ov[k] = 1;
    s = siwkatenor_solve_lower_triangular(MOST, MOST, lp, MOST + 1, li, entries, lx, entries, ov, MOST);
    printf("forward %u\n", s.number);
    count = chain(PAST, 0, 1);
    printf("65,536 columns: check %u, analysis %u, up %u\n", siwkatenor_check(PAST, PAST, p, PAST + 1, i, count, v, count), analyse(PAST, count, FULL), factor(PAST, count, entries, FULL).number);
}

/* 65,535 rows: 64 full columns and one of 64 rows, which makes 4,194,304; with one more row one too many. */
static uint32_t transpose(size_t count, size_t room)
{
    size_t k;
    for (k = 0; k < count; k++) i[k] = (uint32_t)(k % MOST), v[k] = 1;
    for (k = 0; k < 65; k++) p[k] = (uint32_t)(k * MOST);
    p[65] = (uint32_t)count;
    return siwkatenor_transpose(MOST, 65, p, 66, i, count, v, count, op, MOST + 1, oi, room, ov, room, SCRATCH);
}

static void entries(void)
{
    printf("4,194,304 entries: transposed with room for all but one %u, for all %u\n", transpose(FULL, FULL - 1), transpose(FULL, FULL));
    printf("4,194,305 entries: %u\n", transpose(OVER, OVER));
    /* a first row that is full fills a triangle of 2,895 columns, 4,191,960 entries; each column behind it has its diagonal alone */
    printf("U of 4,194,304 entries: %u", analyse(2895 + 2344, chain(2895 + 2344, 2895, 0), FULL));
    printf(", up[n] %u\n", up[2895 + 2344]);
    printf("U of 4,194,305 entries: %u\n", analyse(2895 + 2345, chain(2895 + 2345, 2895, 0), OVER));
}

static void triplets(void)
{
    size_t need = siwkatenor_scratch_triplet(MOST, MOST, MOST), k;
    for (k = 0; k < MOST; k++) i[k] = (uint32_t)(MOST - 1 - k), v[k] = 1;
#define ASSEMBLE(need, room) siwkatenor_from_triplet(MOST, MOST, i, MOST, i, MOST, v, MOST, op, MOST + 1, oi, room, ov, room, w1, need, w2, need, w3, need, x, need)
    printf("65,535 triplets: scratch one short %u, room one short %u, both exact %u\n", ASSEMBLE(need - 1, MOST), ASSEMBLE(need, MOST - 1), ASSEMBLE(need, MOST));
}

/* The largest dimensions that a size_t holds are refused with 1, by one pointer that is lent; nothing is read past it. */
static void largest(void)
{
    p[0] = 0;
    printf("the largest size_t: check %u and %u", siwkatenor_check(SIZE_MAX, SIZE_MAX, p, 1, i, 0, v, 0), siwkatenor_check(0, SIZE_MAX, p, 1, i, 0, v, 0));
    printf(", transposed %u", siwkatenor_transpose(SIZE_MAX, 0, p, 1, i, 0, v, 0, op, 1, oi, 0, ov, 0, SCRATCH));
    printf(", analysis %u", siwkatenor_analyse(SIZE_MAX, SIZE_MAX, p, 1, i, 0, tree, 1, up, 1, ui, 1, lp, 1, li, 1, SCRATCH));
    printf(", triplets %u\n", siwkatenor_from_triplet(SIZE_MAX, SIZE_MAX, i, 0, i, 0, v, 0, op, 1, oi, 0, ov, 0, SCRATCH));
}

/* The diagonal of 65,535 columns transposed is itself: how many pointers, rows and values are not. */
static void diagonal(void)
{
    size_t count = chain(MOST, 0, 0), k, wrong = 0;
    uint32_t number = siwkatenor_transpose(MOST, MOST, p, MOST + 1, i, count, v, count, op, MOST + 1, oi, count, ov, count, SCRATCH);
    for (k = 0; k <= MOST; k++) wrong += op[k] != k;
    for (k = 0; k < MOST; k++) wrong += oi[k] != k || ov[k] != 4;
    printf("the diagonal of 65,535 columns transposed %u, wrong in %zu places\n", number, wrong);
}

int main(void)
{
    if (!lend()) return 1;
    largest();
    diagonal();
    columns();
    entries();
    triplets();
    return 0;
}
