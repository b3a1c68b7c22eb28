// A Tutte drawing as a linear system: each inner vertex is the mean of its neighbours, the outer triangle is fixed with v0 at
// (1, 0), v1 at (0, 1) and v2 at (0, 0). Shared by the solvers; the system is part of what is timed.
#pragma once
#include "mesh.hpp"

struct Tutte {
    // The lower triangle of the matrix by columns, rows in rising order.
    std::vector<int> first, row;
    std::vector<double> value;
    // Right-hand sides for x, then for y.
    std::vector<double> right;
    // Number of a vertex among the unknowns, or -1 for v0, -2 for v1, -3 for v2.
    std::vector<int> place;
    int unknowns;

    explicit Tutte(const Mesh &mesh) : place(mesh.n, 0), unknowns(0) {
        auto [v0, v2, v1] = mesh.triangles[0];
        place[v0] = -1, place[v1] = -2, place[v2] = -3;
        for (int &k : place)
            if (k == 0) k = unknowns++;
        std::vector<int> degree(unknowns), count(unknowns + 1);
        right.assign(2 * unknowns, 0);
        // A side occurs once in each direction, so each end sees each of its neighbours once.
        auto each = [&](auto see) {
            for (auto &t : mesh.triangles)
                for (int k = 0; k < 3; k++) see(place[t[k]], place[t[(k + 1) % 3]]);
        };
        each([&](int i, int j) {
            if (i < 0) return;
            degree[i]++;
            if (j > i) count[i + 1]++;
            if (j == -1) right[i] += 1;
            if (j == -2) right[unknowns + i] += 1;
        });
        first.assign(unknowns + 1, 0);
        for (int i = 0; i < unknowns; i++) first[i + 1] = first[i] + count[i + 1] + 1;
        row.resize(first[unknowns]);
        value.assign(row.size(), -1);
        std::vector<int> next(first.begin(), first.end() - 1);
        for (int i = 0; i < unknowns; i++) {
            value[next[i]] = degree[i];
            row[next[i]++] = i;
        }
        each([&](int i, int j) {
            if (i >= 0 && j > i) row[next[i]++] = j;
        });
        for (int i = 0; i < unknowns; i++) std::sort(row.begin() + first[i], row.begin() + first[i + 1]);
    }

    // Prints the time and the drawing.
    void print(double time, const double *x, const double *y) const {
        std::printf("%.3f\n", time);
        for (int k : place)
            if (k >= 0)
                std::printf("%a %a\n", x[k], y[k]);
            else
                std::printf("%d %d\n", k == -1, k == -2);
    }
};
