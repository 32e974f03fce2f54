// The problems: symmetric matrices, stored whole, by columns.
#pragma once
#include <algorithm>
#include <cstdint>
#include <cstdio>
#include <cstdlib>
#include <numeric>
#include <random>
#include <string>
#include <vector>

struct Matrix {
    size_t n = 0;
    std::vector<uint32_t> p, i;
    std::vector<double> v;
};

struct Triplets {
    std::vector<uint32_t> i, j;
    std::vector<double> v;
    void put(size_t row, size_t column, double value)
    {
        i.push_back((uint32_t)row), j.push_back((uint32_t)column), v.push_back(value);
    }
    void both(size_t row, size_t column, double value)
    {
        put(row, column, value);
        if (row != column) put(column, row, value);
    }
};

// Column by column, rows rising; no place is given twice.
inline Matrix stored(size_t n, const Triplets &t)
{
    std::vector<size_t> order(t.i.size());
    std::iota(order.begin(), order.end(), 0);
    std::sort(order.begin(), order.end(), [&](size_t a, size_t b) { return t.j[a] != t.j[b] ? t.j[a] < t.j[b] : t.i[a] < t.i[b]; });
    Matrix m;
    m.n = n;
    m.p.assign(n + 1, 0);
    for (size_t k : order) m.i.push_back(t.i[k]), m.v.push_back(t.v[k]), m.p[t.j[k] + 1]++;
    for (size_t k = 0; k < n; k++) m.p[k + 1] += m.p[k];
    return m;
}

// The matrix whose entries `column(t, k)` puts, for each column k.
template <class Column> Matrix by_columns(size_t n, Column column)
{
    Triplets t;
    for (size_t k = 0; k < n; k++) column(t, k);
    return stored(n, t);
}

inline Matrix laplacian(size_t side)
{
    size_t n = side * side;
    return by_columns(n, [=](Triplets &t, size_t k) {
        t.put(k, k, 4);
        if ((k + 1) % side) t.both(k + 1, k, -1);
        if (k + side < n) t.both(k + side, k, -1);
    });
}

inline Matrix band(size_t n, size_t width)
{
    return by_columns(n, [=](Triplets &t, size_t k) {
        t.put(k, k, 2.0 * width + 1);
        for (size_t d = 1; d <= width && k + d < n; d++) t.both(k + d, k, -1.0 / d);
    });
}

inline Matrix diagonal(size_t n)
{
    return by_columns(n, [](Triplets &t, size_t k) { t.put(k, k, 2.0 + k % 5); });
}

// Each column but the last has one neighbour behind it, so L has no fill.
inline Matrix tree(size_t n)
{
    std::mt19937 random(1);
    return by_columns(n, [&](Triplets &t, size_t k) {
        t.put(k, k, 60);
        if (k + 1 < n) t.both(std::min<size_t>(n - 1, k + 1 + random() % 50), k, -1);
    });
}

// About four places a column.
inline Matrix small(size_t n)
{
    std::mt19937 random(2);
    return by_columns(n, [&](Triplets &t, size_t k) {
        t.put(k, k, 20);
        for (size_t r = 0; r < k; r++)
            if (random() % n < 2) t.both(r, k, -0.5 - 0.125 * (random() % 8));
    });
}

// `row column value` a line, one triangle, rows and columns from 0.
inline Matrix from_file(const std::string &name)
{
    FILE *f = fopen(name.c_str(), "r");
    if (!f) fprintf(stderr, "bench: no file %s\n", name.c_str()), exit(2);
    Triplets t;
    size_t row, column, n = 0;
    double value;
    while (fscanf(f, "%zu %zu %lf", &row, &column, &value) == 3) t.both(row, column, value), n = std::max(n, std::max(row, column) + 1);
    fclose(f);
    return stored(n, t);
}
