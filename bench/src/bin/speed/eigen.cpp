// The symmetric eigendecomposition of Eigen, for `speed`.
#include <Eigen/Eigenvalues>

extern "C" void eigen_solve(int n, const double *table, double *values, double *vectors) {
    using Matrix = Eigen::MatrixXd;
    Eigen::Map<const Matrix> given(table, n, n);
    Eigen::SelfAdjointEigenSolver<Matrix> solver(given);
    Eigen::Map<Eigen::VectorXd>(values, n) = solver.eigenvalues();
    Eigen::Map<Matrix>(vectors, n, n) = solver.eigenvectors();
}
