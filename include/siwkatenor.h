/* Siwkatenor: sparse matrices and their Cholesky factors, for C and C++.

   Every call here is a proved function of crates/exports: any numbers are taken and the call ends; what cannot be served is
   refused by the lowest number that applies; what is served has exactly the bits that docs/01-scope.md fixes. There is no
   heap and no state: the caller lends everything, and a call may be made from any thread on memory that no other one uses.

   The archive is for x86-64 Linux. A slice is a pointer and a length in elements, in this order. What the calls must be able
   to trust is what C always trusts: a slice has its length (with the length 0 any pointer will do), its pointer is aligned for its
   type, and a slice that is written overlaps no other slice of the same call.

   A matrix has nrows rows and ncols columns, stored by columns: ncols + 1 pointers p (the first is 0, none falls, the last is the
   entry count), rows i and values v. The rows of column j stand at p[j] .. p[j + 1] - 1 and rise strictly. A pattern is a matrix
   without values. A vector of dimension n is a list of strictly rising rows i, below n, with as many values v. */
#ifndef SIWKATENOR_H
#define SIWKATENOR_H

#include <stddef.h>
#include <stdint.h>

#ifdef __cplusplus
extern "C" {
#endif

/* The answer numbers, and what each leaves behind.
   1 to 6 change nothing that was lent. 7 to 10 leave the outputs as they were. From 7 on, and at 0, the first elements of each
   scratch slice, as many as are needed, are zeros; the rest is as it was. */
#define SIWKATENOR_DONE 0       /* the outputs are written; what is longer than needed keeps its tail */
#define SIWKATENOR_TOO_LARGE 1  /* a dimension is over 65,535, or an entry count over 4,194,304 */
#define SIWKATENOR_DISAGREE 2   /* lengths or dimensions disagree, or a matrix is not square where it has to be */
#define SIWKATENOR_POINTERS 3   /* the pointers do not start at 0, fall, or do not end at the entry count */
#define SIWKATENOR_RANGE 4      /* a row or column number is not below its dimension */
#define SIWKATENOR_ORDER 5      /* the rows of a column, or of a vector, do not rise strictly */
#define SIWKATENOR_SCRATCH 6    /* a scratch slice is shorter than siwkatenor_scratch.. says */
#define SIWKATENOR_ROOM 7       /* an output is shorter than needed, or more than 4,194,304 entries would be needed */
#define SIWKATENOR_ANALYSIS 8   /* the lent analysis is not the one of this pattern */
#define SIWKATENOR_CLASH 9      /* left factoring: a stored row below the diagonal has no place in L; assembly: a place given twice */
#define SIWKATENOR_DIAGONAL 10  /* a diagonal that a solve needs is absent, +0.0 or -0.0; the answer names its column */
#define SIWKATENOR_PIVOT 11     /* a pivot is not above zero, or is NaN; the answer names its column and the pivot, and L is all +0.0 */

#define SIWKATENOR_MAX_DIMENSION 65535
#define SIWKATENOR_MAX_ENTRIES 4194304
#define SIWKATENOR_TREE_ROOT 4294967295u /* in a tree: this column has no parent */

/* A solve's answer: the number, and with 10 the column, else 0. */
typedef struct siwkatenor_solved {
    uint32_t number;
    uint32_t column;
} siwkatenor_solved;

/* A factoring's answer: the number, and with 11 the column and the pivot that was tested, else 0 and +0.0. */
typedef struct siwkatenor_factored {
    uint32_t number;
    uint32_t column;
    double pivot;
} siwkatenor_factored;

/* --- Sizes. Of dimensions and counts up to the maxima none of these overflows. They only say how much to lend: if one were
   wrong, or handed what no check was asked about, the call would answer 6 or 7. */

static inline size_t siwkatenor_larger(size_t a, size_t b) { return a < b ? b : a; }

/* elements of each scratch slice, for all calls that take scratch but assembly; of a product, over both operands */
static inline size_t siwkatenor_scratch(size_t nrows, size_t ncols) { return siwkatenor_larger(nrows, ncols) + 1; }

/* elements of each scratch slice for an assembly of count triplets */
static inline size_t siwkatenor_scratch_triplet(size_t nrows, size_t ncols, size_t count)
{
    size_t most = siwkatenor_scratch(nrows, ncols);
    return most + most + count;
}

/* elements of p: for every matrix, and for the pointers of U and L */
static inline size_t siwkatenor_pointers(size_t ncols) { return ncols + 1; }

/* The entries of U, which are those of L, counted one by one: the room that an analysis and a factoring need. The pattern has
   n rows and n columns and is one for which siwkatenor_check_pattern answers 0. parent and mark: n elements each, of any content. */
static inline size_t siwkatenor_count_upper(size_t n, const uint32_t *p, const uint32_t *i, uint32_t *parent, uint32_t *mark)
{
    size_t count = 0, k;
    for (k = 0; k < n; k++) {
        uint32_t q, column = (uint32_t)k;
        parent[k] = mark[k] = SIWKATENOR_TREE_ROOT;
        for (q = p[k]; q < p[k + 1] && i[q] <= column; q++) {
            uint32_t r = i[q];
            while (r < column && mark[r] != column) {
                mark[r] = column;
                count++;
                if (parent[r] == SIWKATENOR_TREE_ROOT) parent[r] = column;
                r = parent[r];
            }
            if (mark[k] != column) {
                mark[k] = column;
                count++;
            }
        }
    }
    return count;
}

/* At least the entries of a product, and no more than a product may have: for each stored row of B the entries of A's column,
   added up. ap are A's pointers; bi are B's bn stored rows, each below A's column count. */
static inline size_t siwkatenor_bound_product(const uint32_t *ap, const uint32_t *bi, size_t bn)
{
    size_t count = 0, q;
    for (q = 0; q < bn && count < SIWKATENOR_MAX_ENTRIES; q++) count += ap[bi[q] + 1] - ap[bi[q]];
    return count < SIWKATENOR_MAX_ENTRIES ? count : SIWKATENOR_MAX_ENTRIES;
}

/* At least the entries of a sum of matrices with an and bn entries. */
static inline size_t siwkatenor_bound_sum(size_t an, size_t bn)
{
    return an + bn < SIWKATENOR_MAX_ENTRIES ? an + bn : SIWKATENOR_MAX_ENTRIES;
}

/* --- Checks: 0 for a valid one, else the lowest of 1 to 5. */

uint32_t siwkatenor_check_pattern(size_t nrows, size_t ncols, const uint32_t *p, size_t p_len, const uint32_t *i, size_t i_len);

uint32_t siwkatenor_check(size_t nrows, size_t ncols, const uint32_t *p, size_t p_len, const uint32_t *i, size_t i_len, const double *v, size_t v_len);

uint32_t siwkatenor_check_vector(size_t n, const uint32_t *i, size_t i_len, const double *v, size_t v_len);

/* --- Matrices. Four scratch slices w1, w2, w3 and x go with most calls. */

/* The matrix of the triplets (irows[k], icols[k], vals[k]), in any order, zeros kept: p, ncols + 1 pointers; i and v, as many
   as there are triplets. Scratch: siwkatenor_scratch_triplet(nrows, ncols, irows_len). Answers 0, 1, 2, 4, 6, 7, 9. */
uint32_t siwkatenor_from_triplet(
    size_t nrows, size_t ncols, const uint32_t *irows, size_t irows_len, const uint32_t *icols, size_t icols_len, const double *vals, size_t vals_len,
    uint32_t *p, size_t p_len, uint32_t *i, size_t i_len, double *v, size_t v_len,
    uint32_t *w1, size_t w1_len, uint32_t *w2, size_t w2_len, uint32_t *w3, size_t w3_len, double *x, size_t x_len);

/* The transpose: tp, nrows + 1 pointers; ti and tv, as many as there are entries. Scratch: siwkatenor_scratch(nrows, ncols).
   Answers 0 to 7. */
uint32_t siwkatenor_transpose(
    size_t nrows, size_t ncols, const uint32_t *p, size_t p_len, const uint32_t *i, size_t i_len, const double *v, size_t v_len,
    uint32_t *tp, size_t tp_len, uint32_t *ti, size_t ti_len, double *tv, size_t tv_len,
    uint32_t *w1, size_t w1_len, uint32_t *w2, size_t w2_len, uint32_t *w3, size_t w3_len, double *x, size_t x_len);

/* Each value times s, in place. Answers 0 to 5. */
uint32_t siwkatenor_scale(size_t nrows, size_t ncols, const uint32_t *p, size_t p_len, const uint32_t *i, size_t i_len, double *v, size_t v_len, double s);

/* y, which has n elements: with beta zero alpha times v at the rows i, and nothing else; with another beta all of y times beta,
   then alpha times v added at the rows i. Answers 0, 1, 2, 4, 5. */
uint32_t siwkatenor_axpy_cs(size_t n, double alpha, const uint32_t *i, size_t i_len, const double *v, size_t v_len, double beta, double *y, size_t y_len);

/* The sum of two matrices of the same dimensions, zeros kept: op, ncols + 1 pointers; oi and ov, as many as there are different
   places (siwkatenor_bound_sum is enough). op[ncols] tells how many. Answers 0 to 5, 7. */
uint32_t siwkatenor_sum(
    size_t nrows, size_t ncols, const uint32_t *ap, size_t ap_len, const uint32_t *ai, size_t ai_len, const double *av, size_t av_len,
    size_t bnrows, size_t bncols, const uint32_t *bp, size_t bp_len, const uint32_t *bi, size_t bi_len, const double *bv, size_t bv_len,
    uint32_t *op, size_t op_len, uint32_t *oi, size_t oi_len, double *ov, size_t ov_len);

/* The product of A and B, ncols being bnrows, without the rows that come out zero: op, bncols + 1 pointers; oi and ov, as many as
   remain (siwkatenor_bound_product is enough). op[bncols] tells how many. Scratch: siwkatenor_scratch over all four dimensions.
   Answers 0 to 7. */
uint32_t siwkatenor_product(
    size_t nrows, size_t ncols, const uint32_t *ap, size_t ap_len, const uint32_t *ai, size_t ai_len, const double *av, size_t av_len,
    size_t bnrows, size_t bncols, const uint32_t *bp, size_t bp_len, const uint32_t *bi, size_t bi_len, const double *bv, size_t bv_len,
    uint32_t *op, size_t op_len, uint32_t *oi, size_t oi_len, double *ov, size_t ov_len,
    uint32_t *w1, size_t w1_len, uint32_t *w2, size_t w2_len, uint32_t *w3, size_t w3_len, double *x, size_t x_len);

/* --- The factor's pattern. Nothing below the diagonal is read. Scratch: siwkatenor_scratch(n, n). */

/* The analysis of a square pattern: tree, n parents; up and lp, n + 1 pointers; ui and li, as many rows as U has entries
   (siwkatenor_count_upper). up[n] tells how many. U's columns need not rise; L's do. Answers 0 to 7. */
uint32_t siwkatenor_analyse(
    size_t nrows, size_t ncols, const uint32_t *p, size_t p_len, const uint32_t *i, size_t i_len,
    uint32_t *tree, size_t tree_len, uint32_t *up, size_t up_len, uint32_t *ui, size_t ui_len, uint32_t *lp, size_t lp_len, uint32_t *li, size_t li_len,
    uint32_t *w1, size_t w1_len, uint32_t *w2, size_t w2_len, uint32_t *w3, size_t w3_len, double *x, size_t x_len);

/* What a factoring would say of a lent analysis where L's values have the length room. Answers 0 to 8. */
uint32_t siwkatenor_compare(
    size_t nrows, size_t ncols, const uint32_t *p, size_t p_len, const uint32_t *i, size_t i_len, size_t room,
    const uint32_t *tree, size_t tree_len, const uint32_t *up, size_t up_len, const uint32_t *ui, size_t ui_len,
    const uint32_t *lp, size_t lp_len, const uint32_t *li, size_t li_len,
    uint32_t *w1, size_t w1_len, uint32_t *w2, size_t w2_len, uint32_t *w3, size_t w3_len, double *x, size_t x_len);

/* --- The factorings: L's values, in lx, of a matrix with its analysis. lx: as many as U has entries. L is then the matrix n by n
   with the pointers lp, the rows li and the values lx. Scratch: siwkatenor_scratch(n, n). */

/* Reads the stored values at and below the diagonal. Answers 0 to 9, 11. */
siwkatenor_factored siwkatenor_decompose_left_looking(
    size_t nrows, size_t ncols, const uint32_t *p, size_t p_len, const uint32_t *i, size_t i_len, const double *v, size_t v_len,
    const uint32_t *tree, size_t tree_len, const uint32_t *up, size_t up_len, const uint32_t *ui, size_t ui_len,
    const uint32_t *lp, size_t lp_len, const uint32_t *li, size_t li_len, double *lx, size_t lx_len,
    uint32_t *w1, size_t w1_len, uint32_t *w2, size_t w2_len, uint32_t *w3, size_t w3_len, double *x, size_t x_len);

/* Reads the stored values at and above the diagonal. Answers 0 to 8, 11. */
siwkatenor_factored siwkatenor_decompose_up_looking(
    size_t nrows, size_t ncols, const uint32_t *p, size_t p_len, const uint32_t *i, size_t i_len, const double *v, size_t v_len,
    const uint32_t *tree, size_t tree_len, const uint32_t *up, size_t up_len, const uint32_t *ui, size_t ui_len,
    const uint32_t *lp, size_t lp_len, const uint32_t *li, size_t li_len, double *lx, size_t lx_len,
    uint32_t *w1, size_t w1_len, uint32_t *w2, size_t w2_len, uint32_t *w3, size_t w3_len, double *x, size_t x_len);

/* --- Solves with the lower triangle of a square matrix; what stands above the diagonal is ignored. */

/* Forward, b in place; b has n elements. Answers 0 to 5, 10 with the lowest column. */
siwkatenor_solved siwkatenor_solve_lower_triangular(
    size_t nrows, size_t ncols, const uint32_t *p, size_t p_len, const uint32_t *i, size_t i_len, const double *v, size_t v_len, double *b, size_t b_len);

/* With the triangle transposed, b in place. Answers 0 to 5, 10 with the highest column. */
siwkatenor_solved siwkatenor_tr_solve_lower_triangular(
    size_t nrows, size_t ncols, const uint32_t *p, size_t p_len, const uint32_t *i, size_t i_len, const double *v, size_t v_len, double *b, size_t b_len);

/* Forward with a sparse right side, the vector bi, bv of dimension n: xi and xv, the reached rows rising with their values, zeros
   kept; n elements are always enough. Before the call fill xi with SIWKATENOR_TREE_ROOT if the count is wanted: the result ends at
   the first element that is still it. Scratch: siwkatenor_scratch(n, n). Answers 0 to 7, 10 with the lowest reached column. */
siwkatenor_solved siwkatenor_solve_lower_triangular_cs(
    size_t nrows, size_t ncols, const uint32_t *p, size_t p_len, const uint32_t *i, size_t i_len, const double *v, size_t v_len,
    const uint32_t *bi, size_t bi_len, const double *bv, size_t bv_len, uint32_t *xi, size_t xi_len, double *xv, size_t xv_len,
    uint32_t *w1, size_t w1_len, uint32_t *w2, size_t w2_len, uint32_t *w3, size_t w3_len, double *x, size_t x_len);

/* --- The square root, rounded to nearest: of a number, and from bits to bits. NaN and numbers below zero give NaN. */

double siwkatenor_root(double x);

uint64_t siwkatenor_root_bits(uint64_t b);

#ifdef __cplusplus
}
#endif

#endif
