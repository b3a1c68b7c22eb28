// A Tutte drawing by Eigen's SimplicialLDLT, in doubles.
#include "tutte.hpp"
#include <Eigen/Sparse>

int main() {
    Mesh mesh = read_mesh();
    Eigen::MatrixXd drawing;
    double time = least([&] {
        Tutte system(mesh);
        int size = system.unknowns;
        Eigen::Map<const Eigen::SparseMatrix<double>> matrix(
            size, size, system.row.size(), system.first.data(), system.row.data(), system.value.data());
        Eigen::Map<const Eigen::MatrixXd> right(system.right.data(), size, 2);
        Eigen::SimplicialLDLT<Eigen::SparseMatrix<double>> solver(matrix);
        drawing = solver.solve(right);
    });
    Tutte(mesh).print(time, drawing.col(0).data(), drawing.col(1).data());
}
