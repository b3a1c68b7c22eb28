// A Tutte drawing by CHOLMOD of SuiteSparse, in doubles.
#include "tutte.hpp"
#include <cholmod.h>

int main() {
    Mesh mesh = read_mesh();
    cholmod_common common;
    cholmod_start(&common);
    std::vector<double> drawing;
    double time = least([&] {
        Tutte system(mesh);
        size_t size = system.unknowns;
        cholmod_sparse matrix{};
        matrix.nrow = matrix.ncol = size;
        matrix.nzmax = system.row.size();
        matrix.p = system.first.data();
        matrix.i = system.row.data();
        matrix.x = system.value.data();
        matrix.stype = -1;
        matrix.itype = CHOLMOD_INT;
        matrix.xtype = CHOLMOD_REAL;
        matrix.dtype = CHOLMOD_DOUBLE;
        matrix.sorted = matrix.packed = 1;
        cholmod_dense right{};
        right.nrow = right.d = size;
        right.ncol = 2;
        right.nzmax = 2 * size;
        right.x = system.right.data();
        right.xtype = CHOLMOD_REAL;
        right.dtype = CHOLMOD_DOUBLE;
        cholmod_factor *factor = cholmod_analyze(&matrix, &common);
        cholmod_factorize(&matrix, factor, &common);
        cholmod_dense *solved = cholmod_solve(CHOLMOD_A, factor, &right, &common);
        auto *x = static_cast<double *>(solved->x);
        drawing.assign(x, x + 2 * size);
        cholmod_free_dense(&solved, &common);
        cholmod_free_factor(&factor, &common);
    });
    Tutte(mesh).print(time, drawing.data(), drawing.data() + drawing.size() / 2);
    cholmod_finish(&common);
}
