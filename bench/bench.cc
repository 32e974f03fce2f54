// bench PROBLEM ROUNDS [alone]: times each operation of the library and of its peers (or of the library alone) on one problem, and
// checks the bits and the residuals. PROBLEM is laplacianSIDE, bandN, diagonalN, treeN, smallN or a file.
// Lines: `size PROBLEM ..`, `time PROBLEM OPERATION SIDE MICROSECONDS`, `bits PROBLEM WHAT ok|DIFFER`, `residual PROBLEM SIDE NUMBER`.
// The status is 1 where bits differ or a residual is too large.
#include "problems.h"
#include "race.h"
#include <Eigen/SparseCholesky>
#include <Eigen/SparseCore>
#include <cholmod.h>
#include <cmath>
#include <cs.h>
#include <cstring>
#include <siwkatenor.h>

using std::string;
using std::vector;
typedef Eigen::SparseMatrix<double, Eigen::ColMajor, int> Sparse;

#ifdef ORIGINAL
extern "C" {
void *rust_matrix(size_t, const uint32_t *, const uint32_t *, const double *, size_t);
void *rust_vector(size_t, size_t, double);
void *rust_dense(size_t);
double *rust_values(void *);
void rust_free_matrix(void *);
void rust_free_vector(void *);
void rust_free_cholesky(void *);
void *rust_analyse(const void *);
bool rust_left(void *, const double *, size_t);
bool rust_up(void *, const double *, size_t);
void *rust_l(const void *);
const double *rust_matrix_values(const void *);
bool rust_forward(const void *, void *);
bool rust_transposed(const void *, void *);
void *rust_sparse(const void *, const void *);
void *rust_product(const void *, const void *);
void *rust_sum(const void *, const void *);
void *rust_transpose(const void *);
void *rust_triplet(size_t, const size_t *, const size_t *, const double *, size_t);
void rust_roots(const double *, double *, size_t);
}
#endif

#define S(v) (v).data(), (v).size()

// The number of a factoring's answer. The native module of a processor that is not x86-64 is made from LLVM's text for x86-64, where
// number and column come back in one integer register and the pivot in a float register: the integer is what is read.
template <class... A> static uint32_t number(siwkatenor_factored (*f)(A...), typename std::common_type<A>::type... a)
{
    return (uint32_t) reinterpret_cast<uint64_t (*)(A...)>(f)(a...);
}

static bool wrong = false, alone = false;
static void must(bool holds, const char *what)
{
    if (!holds) fprintf(stderr, "bench: %s failed\n", what), exit(1);
}

struct Scratch {
    vector<uint32_t> w1, w2, w3;
    vector<double> x;
    explicit Scratch(size_t need) : w1(need), w2(need), w3(need), x(need) {}
};
#define SCRATCH(s) S((s).w1), S((s).w2), S((s).w3), S((s).x)

// The library's side: a matrix, its analysis, L.
struct Ours {
    const Matrix &a;
    size_t n, entries;
    Scratch s;
    vector<uint32_t> tree, up, ui, lp, li;
    vector<double> lx;
    explicit Ours(const Matrix &m) : a(m), n(m.n), s(siwkatenor_scratch(m.n, m.n)), tree(n), up(n + 1), lp(n + 1)
    {
        entries = siwkatenor_count_upper(n, a.p.data(), a.i.data(), s.w1.data(), s.w2.data());
        ui.resize(entries), li.resize(entries), lx.resize(entries);
    }
    uint32_t analyse() { return siwkatenor_analyse(n, n, S(a.p), S(a.i), S(tree), S(up), S(ui), S(lp), S(li), SCRATCH(s)); }
    uint32_t compare() { return siwkatenor_compare(n, n, S(a.p), S(a.i), lx.size(), S(tree), S(up), S(ui), S(lp), S(li), SCRATCH(s)); }
    uint32_t left() { return number(siwkatenor_decompose_left_looking, n, n, S(a.p), S(a.i), S(a.v), S(tree), S(up), S(ui), S(lp), S(li), S(lx), SCRATCH(s)); }
    uint32_t upward() { return number(siwkatenor_decompose_up_looking, n, n, S(a.p), S(a.i), S(a.v), S(tree), S(up), S(ui), S(lp), S(li), S(lx), SCRATCH(s)); }
    uint32_t forward(vector<double> &b) { return siwkatenor_solve_lower_triangular(n, n, S(lp), S(li), S(lx), S(b)).number; }
    uint32_t transposed(vector<double> &b) { return siwkatenor_tr_solve_lower_triangular(n, n, S(lp), S(li), S(lx), S(b)).number; }
};

// CHOLMOD in natural order, simplicial or supernodal.
struct Cholmod {
    cholmod_common c;
    cholmod_sparse *a;
    cholmod_factor *f = nullptr;
    Cholmod(Sparse &lower, int kind, int postorder)
    {
        cholmod_start(&c);
        c.nmethods = 1, c.method[0].ordering = CHOLMOD_NATURAL, c.postorder = postorder, c.supernodal = kind, c.final_ll = 1;
        a = view(lower, -1);
        f = cholmod_analyze(a, &c);
    }
    static cholmod_sparse *view(Sparse &m, int stype)
    {
        cholmod_sparse *s = new cholmod_sparse();
        s->nrow = s->ncol = m.rows(), s->nzmax = m.nonZeros(), s->p = m.outerIndexPtr(), s->i = m.innerIndexPtr(), s->x = m.valuePtr();
        s->stype = stype, s->itype = CHOLMOD_INT, s->xtype = CHOLMOD_REAL, s->dtype = CHOLMOD_DOUBLE, s->sorted = s->packed = 1;
        return s;
    }
    void analyse()
    {
        cholmod_factor *g = cholmod_analyze(a, &c);
        cholmod_free_factor(&g, &c);
    }
    void factor() { must(cholmod_factorize(a, f, &c) && c.status == CHOLMOD_OK, "cholmod"); }
    void solve(int system, vector<double> &b)
    {
        cholmod_dense d = {};
        d.nrow = d.nzmax = d.d = b.size(), d.ncol = 1, d.x = b.data(), d.xtype = CHOLMOD_REAL, d.dtype = CHOLMOD_DOUBLE;
        cholmod_dense *y = cholmod_solve(system, f, &d, &c);
        memcpy(b.data(), y->x, b.size() * sizeof(double));
        cholmod_free_dense(&y, &c);
    }
};

static cs_di cs_view(Sparse &m) { return {(int)m.nonZeros(), (int)m.rows(), (int)m.cols(), m.outerIndexPtr(), m.innerIndexPtr(), m.valuePtr(), -1}; }

struct Bench {
    string name;
    int rounds;
    Matrix a;
    Ours ours;
    size_t n, count;
    Sparse full, lower, upper;
    cs_di cs_full, cs_upper;
    cs_dis *cs_symbolic;
    cs_din *cs_numeric;
    Eigen::SimplicialLLT<Sparse, Eigen::Lower, Eigen::NaturalOrdering<int>> llt;
    vector<double> b;
    void *rust = nullptr, *rust_factor = nullptr, *rust_b = nullptr;

    Bench(const string &name, int rounds, Matrix m) : name(name), rounds(rounds), a(m), ours(a), n(a.n), count(a.i.size()), b(n)
    {
        vector<int> p(a.p.begin(), a.p.end()), i(a.i.begin(), a.i.end());
        full = Eigen::Map<Sparse>(n, n, count, p.data(), i.data(), a.v.data());
        lower = full.triangularView<Eigen::Lower>(), upper = full.triangularView<Eigen::Upper>();
        lower.makeCompressed(), upper.makeCompressed();
        cs_full = cs_view(full), cs_upper = cs_view(upper);
        cs_symbolic = cs_di_schol(0, &cs_upper), cs_numeric = cs_di_chol(&cs_upper, cs_symbolic);
        llt.analyzePattern(lower);
        for (size_t k = 0; k < n; k++) b[k] = 1.0 + k % 7;
#ifdef ORIGINAL
        rust = rust_matrix(n, a.p.data(), a.i.data(), a.v.data(), count), rust_factor = rust_analyse(rust), rust_b = rust_dense(n);
#endif
        must(ours.analyse() == 0, "analysis");
        printf("size %s n %zu entries %zu factor %zu\n", name.c_str(), n, count, ours.entries);
    }

    void race(const char *operation, vector<Side> sides)
    {
        if (alone) sides.resize(1);
        ::race(name, operation, rounds, sides);
    }

    void same(const char *what, const void *x, const void *y, size_t bytes)
    {
        bool ok = !memcmp(x, y, bytes);
        wrong |= !ok;
        printf("bits %s %s %s\n", name.c_str(), what, ok ? "ok" : "DIFFER");
    }

    // The backward error: the largest |A x - b| against |A| |x| + |b|, row by row.
    void residual(const char *side, vector<double> x)
    {
        Eigen::Map<Eigen::VectorXd> X(x.data(), n), B(b.data(), n);
        Eigen::VectorXd r = full * X - B, size = full.cwiseAbs() * X.cwiseAbs() + B.cwiseAbs();
        double most = r.cwiseAbs().cwiseQuotient(size).maxCoeff();
        bool ok = most < 1e-13;
        wrong |= !ok;
        printf("residual %s %s %.1e%s\n", name.c_str(), side, most, ok ? "" : " TOO LARGE");
    }

    void analysis();
    void factorings();
    void solves();
    void operations();
    void assembly(const char *operation, bool shuffled);
    void checks();
    void roots();
    void job();
};

void Bench::analysis()
{
    Cholmod simplicial(lower, CHOLMOD_SIMPLICIAL, 0), supernodal(lower, CHOLMOD_SUPERNODAL, 1);
    race("analysis", {{"ours", [&] { ours.analyse(); }},
#ifdef ORIGINAL
                      {"rust", [&] { rust_free_cholesky(rust_analyse(rust)); }},
#endif
                      {"cxsparse", [&] { cs_di_sfree(cs_di_schol(0, &cs_upper)); }},
                      {"eigen", [&] { llt.analyzePattern(lower); }},
                      {"simplicial", [&] { simplicial.analyse(); }},
                      {"supernodal", [&] { supernodal.analyse(); }}});
}

void Bench::factorings()
{
    Cholmod simplicial(lower, CHOLMOD_SIMPLICIAL, 0), supernodal(lower, CHOLMOD_SUPERNODAL, 1);
    vector<Side> peers = {{"cxsparse", [&] { cs_di_nfree(cs_di_chol(&cs_upper, cs_symbolic)); }},
                          {"eigen", [&] { llt.factorize(lower); }},
                          {"simplicial", [&] { simplicial.factor(); }},
                          {"supernodal", [&] { supernodal.factor(); }}};
    vector<Side> left = {{"ours", [&] { ours.left(); }}}, up = {{"ours", [&] { ours.upward(); }}};
#ifdef ORIGINAL
    left.push_back({"rust", [&] { rust_left(rust_factor, S(a.v)); }});
    up.push_back({"rust", [&] { rust_up(rust_factor, S(a.v)); }});
#endif
    left.insert(left.end(), peers.begin(), peers.end()), up.insert(up.end(), peers.begin(), peers.end());
    race("left", left), race("up", up);

    auto solved = [&](const char *side) {
        vector<double> x = b;
        must(ours.forward(x) == 0 && ours.transposed(x) == 0, "solve");
        residual(side, x);
    };
    must(ours.left() == 0, "left"), solved("ours-left");
#ifdef ORIGINAL
    must(rust_left(rust_factor, S(a.v)), "rust"), same("left-rust", ours.lx.data(), rust_matrix_values(rust_l(rust_factor)), ours.entries * 8);
#endif
    must(ours.upward() == 0, "up"), solved("ours-up");
#ifdef ORIGINAL
    must(rust_up(rust_factor, S(a.v)), "rust"), same("up-rust", ours.lx.data(), rust_matrix_values(rust_l(rust_factor)), ours.entries * 8);
#endif
    same("up-cxsparse-pointers", ours.lp.data(), cs_numeric->L->p, (n + 1) * 4), same("up-cxsparse-rows", ours.li.data(), cs_numeric->L->i, ours.entries * 4);
    same("up-cxsparse", ours.lx.data(), cs_numeric->L->x, ours.entries * 8);
    vector<double> x = b;
    cs_di_lsolve(cs_numeric->L, x.data()), cs_di_ltsolve(cs_numeric->L, x.data()), residual("cxsparse", x);
    x = b, simplicial.factor(), simplicial.solve(CHOLMOD_A, x), residual("simplicial", x);
    x = b, supernodal.factor(), supernodal.solve(CHOLMOD_A, x), residual("supernodal", x);
    llt.factorize(lower);
    Eigen::VectorXd y = llt.solve(Eigen::Map<Eigen::VectorXd>(b.data(), n));
    residual("eigen", vector<double>(y.data(), y.data() + n));
}

void Bench::solves()
{
    vector<double> x = b;
    auto fresh = [&] { memcpy(x.data(), b.data(), n * sizeof(double)); };
    cs_di *l = cs_numeric->L;
    Sparse eigen_l = Eigen::Map<Sparse>(n, n, l->p[n], l->p, l->i, l->x);
    Eigen::Map<Eigen::VectorXd> X(x.data(), n);
    Cholmod simplicial(lower, CHOLMOD_SIMPLICIAL, 0), supernodal(lower, CHOLMOD_SUPERNODAL, 1);
    simplicial.factor(), supernodal.factor();
    vector<Side> forward = {{"ours", [&] { fresh(), ours.forward(x); }}}, transposed = {{"ours", [&] { fresh(), ours.transposed(x); }}};
#ifdef ORIGINAL
    const void *rust_factor_l = rust_l(rust_factor);
    double *rust_x = rust_values(rust_b);
    auto rust_fresh = [&] { memcpy(rust_x, b.data(), n * sizeof(double)); };
    forward.push_back({"rust", [&] { rust_fresh(), rust_forward(rust_factor_l, rust_b); }});
    transposed.push_back({"rust", [&] { rust_fresh(), rust_transposed(rust_factor_l, rust_b); }});
#endif
    forward.push_back({"cxsparse", [&] { fresh(), cs_di_lsolve(l, x.data()); }});
    transposed.push_back({"cxsparse", [&] { fresh(), cs_di_ltsolve(l, x.data()); }});
    forward.push_back({"eigen", [&] { fresh(), eigen_l.triangularView<Eigen::Lower>().solveInPlace(X); }});
    transposed.push_back({"eigen", [&] { fresh(), eigen_l.transpose().triangularView<Eigen::Upper>().solveInPlace(X); }});
    forward.push_back({"simplicial", [&] { fresh(), simplicial.solve(CHOLMOD_L, x); }});
    transposed.push_back({"simplicial", [&] { fresh(), simplicial.solve(CHOLMOD_Lt, x); }});
    forward.push_back({"supernodal", [&] { fresh(), supernodal.solve(CHOLMOD_L, x); }});
    transposed.push_back({"supernodal", [&] { fresh(), supernodal.solve(CHOLMOD_Lt, x); }});
    race("forward", forward), race("transposed", transposed);
#ifdef ORIGINAL
    fresh(), ours.forward(x), rust_fresh(), rust_forward(rust_factor_l, rust_b), same("forward-rust", x.data(), rust_x, n * 8);
    fresh(), ours.transposed(x), rust_fresh(), rust_transposed(rust_factor_l, rust_b), same("transposed-rust", x.data(), rust_x, n * 8);
#endif
    for (bool end : {false, true}) { // a right side of one row, in the middle or near the end
        uint32_t row = uint32_t(end ? n - n / 50 - 1 : n / 2);
        vector<uint32_t> bi = {row}, xi(n);
        vector<double> bv = {1.5}, xv(n), work(n);
        int bp[] = {0, 1}, brow[] = {(int)row};
        cs_di rhs = {1, (int)n, 1, bp, brow, bv.data(), -1};
        vector<int> reached(2 * n);
        vector<Side> sides = {{"ours", [&] { siwkatenor_solve_lower_triangular_cs(n, n, S(ours.lp), S(ours.li), S(ours.lx), S(bi), S(bv), S(xi), S(xv), SCRATCH(ours.s)); }}};
#ifdef ORIGINAL
        void *rust_rhs = rust_vector(n, row, 1.5);
        sides.push_back({"rust", [&] { rust_free_vector(rust_sparse(rust_factor_l, rust_rhs)); }});
#endif
        sides.push_back({"cxsparse", [&] { cs_di_spsolve(l, &rhs, 0, reached.data(), work.data(), nullptr, 1); }});
        race(end ? "sparse-end" : "sparse-middle", sides);
    }
}

void Bench::operations()
{
    size_t room = siwkatenor_bound_product(a.p.data(), S(a.i));
    cholmod_common c;
    cholmod_start(&c);
    cholmod_sparse *chol = Cholmod::view(full, 0);
    vector<uint32_t> p(n + 1), i(room);
    vector<double> v(room);
    Sparse out;
    uint32_t product = siwkatenor_product(n, n, S(a.p), S(a.i), S(a.v), n, n, S(a.p), S(a.i), S(a.v), S(p), S(i), S(v), SCRATCH(ours.s));
    if (product == 0)
        race("product", {{"ours", [&] { siwkatenor_product(n, n, S(a.p), S(a.i), S(a.v), n, n, S(a.p), S(a.i), S(a.v), S(p), S(i), S(v), SCRATCH(ours.s)); }},
#ifdef ORIGINAL
                         {"rust", [&] { rust_free_matrix(rust_product(rust, rust)); }},
#endif
                         {"cxsparse", [&] { cs_di_spfree(cs_di_multiply(&cs_full, &cs_full)); }},
                         {"eigen", [&] { out = full * full; }},
                         {"simplicial", [&] { cholmod_sparse *r = cholmod_ssmult(chol, chol, 0, 1, 1, &c); cholmod_free_sparse(&r, &c); }}});

    Matrix d; // the second operand of the sum: each row one lower, the last left out
    d.n = n, d.p = {0};
    for (size_t j = 0; j < n; j++) {
        for (size_t q = a.p[j]; q < a.p[j + 1]; q++)
            if (a.i[q] + 1 < n) d.i.push_back(a.i[q] + 1), d.v.push_back(a.v[q] * 0.5);
        d.p.push_back((uint32_t)d.i.size());
    }
    vector<int> dp(d.p.begin(), d.p.end()), di(d.i.begin(), d.i.end());
    Sparse shifted = Eigen::Map<Sparse>(n, n, di.size(), dp.data(), di.data(), d.v.data());
    cs_di cs_shifted = cs_view(shifted);
    cholmod_sparse *chol_shifted = Cholmod::view(shifted, 0);
    double one[2] = {1, 0};
    room = siwkatenor_bound_sum(count, d.i.size());
    i.resize(room), v.resize(room);
#ifdef ORIGINAL
    void *rust_shifted = rust_matrix(n, d.p.data(), d.i.data(), d.v.data(), d.i.size());
#endif
    race("sum", {{"ours", [&] { siwkatenor_sum(n, n, S(a.p), S(a.i), S(a.v), n, n, S(d.p), S(d.i), S(d.v), S(p), S(i), S(v)); }},
#ifdef ORIGINAL
                 {"rust", [&] { rust_free_matrix(rust_sum(rust, rust_shifted)); }},
#endif
                 {"cxsparse", [&] { cs_di_spfree(cs_di_add(&cs_full, &cs_shifted, 1, 1)); }},
                 {"eigen", [&] { out = full + shifted; }},
                 {"simplicial", [&] { cholmod_sparse *r = cholmod_add(chol, chol_shifted, one, one, 1, 1, &c); cholmod_free_sparse(&r, &c); }}});
    race("transpose", {{"ours", [&] { siwkatenor_transpose(n, n, S(a.p), S(a.i), S(a.v), S(p), S(i), S(v), SCRATCH(ours.s)); }},
#ifdef ORIGINAL
                       {"rust", [&] { rust_free_matrix(rust_transpose(rust)); }},
#endif
                       {"cxsparse", [&] { cs_di_spfree(cs_di_transpose(&cs_full, 1)); }},
                       {"eigen", [&] { out = full.transpose(); }},
                       {"simplicial", [&] { cholmod_sparse *r = cholmod_transpose(chol, 1, &c); cholmod_free_sparse(&r, &c); }}});
    assembly("assembly", false), assembly("assembly-shuffled", true);
}

void Bench::assembly(const char *operation, bool shuffled)
{
    Triplets t;
    for (size_t j = 0; j < n; j++)
        for (size_t q = a.p[j]; q < a.p[j + 1]; q++) t.put(a.i[q], j, a.v[q]);
    if (shuffled) {
        Triplets u = t;
        vector<size_t> order(count);
        std::iota(order.begin(), order.end(), 0);
        std::shuffle(order.begin(), order.end(), std::mt19937_64(9));
        for (size_t k = 0; k < count; k++) t.i[k] = u.i[order[k]], t.j[k] = u.j[order[k]], t.v[k] = u.v[order[k]];
    }
    Scratch s(siwkatenor_scratch_triplet(n, n, count));
    vector<uint32_t> p(n + 1), i(count);
    vector<double> v(count);
    vector<size_t> wide_i(t.i.begin(), t.i.end()), wide_j(t.j.begin(), t.j.end());
    vector<int> ti(t.i.begin(), t.i.end()), tj(t.j.begin(), t.j.end());
    cs_di cs_triplets = {(int)count, (int)n, (int)n, tj.data(), ti.data(), t.v.data(), (int)count};
    vector<Eigen::Triplet<double>> eigen;
    for (size_t k = 0; k < count; k++) eigen.emplace_back(ti[k], tj[k], t.v[k]);
    Sparse out(n, n);
    cholmod_common c;
    cholmod_start(&c);
    cholmod_triplet ct = {};
    ct.nrow = ct.ncol = n, ct.nzmax = ct.nnz = count, ct.i = ti.data(), ct.j = tj.data(), ct.x = t.v.data(), ct.itype = CHOLMOD_INT, ct.xtype = CHOLMOD_REAL, ct.dtype = CHOLMOD_DOUBLE;
    race(operation, {{"ours", [&] { siwkatenor_from_triplet(n, n, S(t.i), S(t.j), S(t.v), S(p), S(i), S(v), SCRATCH(s)); }},
#ifdef ORIGINAL
                     {"rust", [&] { rust_free_matrix(rust_triplet(n, wide_i.data(), wide_j.data(), t.v.data(), count)); }},
#endif
                     {"cxsparse", [&] { cs_di_spfree(cs_di_compress(&cs_triplets)); }},
                     {"eigen", [&] { out.setFromTriplets(eigen.begin(), eigen.end()); }},
                     {"simplicial", [&] { cholmod_sparse *r = cholmod_triplet_to_sparse(&ct, count, &c); cholmod_free_sparse(&r, &c); }}});
    same(operation, v.data(), a.v.data(), count * 8);
}

// What the proved checks cost: the check of A and of L, number 8, and clearing the scratch twice (here by memset).
void Bench::checks()
{
    auto clear = [&] {
        for (vector<uint32_t> *w : {&ours.s.w1, &ours.s.w2, &ours.s.w3}) memset(w->data(), 0, w->size() * 4);
        memset(ours.s.x.data(), 0, ours.s.x.size() * 8);
        asm volatile("" ::: "memory");
    };
    race("check-A", {{"ours", [&] { siwkatenor_check(n, n, S(a.p), S(a.i), S(a.v)); }}});
    race("check-L", {{"ours", [&] { siwkatenor_check(n, n, S(ours.lp), S(ours.li), S(ours.lx)); }}});
    race("number-8", {{"ours", [&] { must(ours.compare() == 0, "compare"); }}});
    race("scratch", {{"ours", [&] { clear(), clear(); }}});
}

// A thousand roots.
void Bench::roots()
{
    vector<double> x(1000), y(1000);
    std::mt19937_64 random(3);
    for (double &z : x) {
        uint64_t bits = (1013ull << 52) + random() % (20ull << 52);
        memcpy(&z, &bits, 8);
    }
    race("root-1000", {{"ours", [&] { for (size_t k = 0; k < 1000; k++) y[k] = siwkatenor_root(x[k]); }},
#ifdef ORIGINAL
                       {"rust", [&] { rust_roots(x.data(), y.data(), 1000); }},
#endif
                       {"processor", [&] {
                            for (size_t k = 0; k < 1000; k++) y[k] = std::sqrt(x[k]);
                            asm volatile("" ::: "memory");
                        }}});
}

// A whole small job: assemble, analyse, factor, solve both ways.
void Bench::job()
{
    Triplets t;
    for (size_t j = 0; j < n; j++)
        for (size_t q = a.p[j]; q < a.p[j + 1]; q++) t.put(a.i[q], j, a.v[q]);
    Scratch s(siwkatenor_scratch_triplet(n, n, count));
    Matrix m = a;
    Ours own(m);
    vector<size_t> wide_i(t.i.begin(), t.i.end()), wide_j(t.j.begin(), t.j.end());
    vector<int> ti(t.i.begin(), t.i.end()), tj(t.j.begin(), t.j.end());
    cs_di cs_triplets = {(int)count, (int)n, (int)n, tj.data(), ti.data(), t.v.data(), (int)count};
    vector<Eigen::Triplet<double>> eigen;
    for (size_t k = 0; k < count; k++) eigen.emplace_back(ti[k], tj[k], t.v[k]);
    vector<double> x;
    auto work = [&](bool left) {
        x = b;
        must(siwkatenor_from_triplet(n, n, S(t.i), S(t.j), S(t.v), S(m.p), S(m.i), S(m.v), SCRATCH(s)) == 0, "job");
        must(own.analyse() == 0 && (left ? own.left() : own.upward()) == 0 && own.forward(x) == 0 && own.transposed(x) == 0, "job");
    };
#ifdef ORIGINAL
    auto rust_work = [&](bool left) {
        void *r = rust_triplet(n, wide_i.data(), wide_j.data(), t.v.data(), count), *f = rust_analyse(r);
        memcpy(rust_values(rust_b), b.data(), n * 8);
        must(left ? rust_left(f, rust_matrix_values(r), count) : rust_up(f, rust_matrix_values(r), count), "job");
        must(rust_forward(rust_l(f), rust_b) && rust_transposed(rust_l(f), rust_b), "job");
        rust_free_cholesky(f), rust_free_matrix(r);
    };
#endif
    auto cs_work = [&] {
        x = b;
        cs_di *r = cs_di_compress(&cs_triplets);
        cs_dis *y = cs_di_schol(0, r);
        cs_din *f = cs_di_chol(r, y);
        cs_di_lsolve(f->L, x.data()), cs_di_ltsolve(f->L, x.data());
        cs_di_nfree(f), cs_di_sfree(y), cs_di_spfree(r);
    };
    auto eigen_work = [&] {
        Sparse m(n, n);
        m.setFromTriplets(eigen.begin(), eigen.end());
        Eigen::SimplicialLLT<Sparse, Eigen::Lower, Eigen::NaturalOrdering<int>> f(m);
        Eigen::VectorXd y = f.solve(Eigen::Map<Eigen::VectorXd>(b.data(), n));
    };
    for (bool left : {true, false})
        race(left ? "job-left" : "job-up", {{"ours", [&] { work(left); }},
#ifdef ORIGINAL
                                            {"rust", [&] { rust_work(left); }},
#endif
                                            {"cxsparse", cs_work},
                                            {"eigen", eigen_work}});
}

int main(int argc, char **argv)
{
    if (argc < 3) return fprintf(stderr, "usage: bench PROBLEM ROUNDS [alone]\n"), 2;
    alone = argc > 3;
    string problem = argv[1], kind = problem.substr(0, problem.find_first_of("0123456789"));
    size_t size = kind.size() < problem.size() ? strtoul(problem.c_str() + kind.size(), nullptr, 10) : 0;
    Matrix m = kind == "laplacian" ? laplacian(size) : kind == "band" ? band(size, 40) : kind == "diagonal" ? diagonal(size)
             : kind == "tree" ? tree(size) : kind == "small" ? small(size) : from_file(problem);
    Bench bench(problem.substr(problem.rfind('/') + 1), atoi(argv[2]), m);
    bench.analysis(), bench.factorings(), bench.solves(), bench.operations(), bench.checks();
    if (kind == "small") bench.roots(), bench.job();
    return wrong;
}
