// Sums, norms, products of matrices and conjugate gradients by ViennaCL; prints what it computes.
#define VIENNACL_WITH_OPENCL
#include "viennacl/linalg/cg.hpp"
#include "viennacl/linalg/inner_prod.hpp"
#include "viennacl/linalg/norm_2.hpp"
#include "viennacl/linalg/norm_inf.hpp"
#include "viennacl/linalg/prod.hpp"
#include "viennacl/matrix.hpp"
#include "viennacl/compressed_matrix.hpp"
#include "viennacl/vector.hpp"

#include <cstdio>
#include <map>
#include <vector>

int main() {
    const std::size_t unknowns = 200, side = 32;
    std::vector<float> numbers(1000);
    for (std::size_t at = 0; at < numbers.size(); at++) numbers[at] = float(at % 17);
    viennacl::vector<float> x(numbers.size()), y(numbers.size());
    viennacl::copy(numbers, x);
    y = 2.0f * x + x;
    const float product = viennacl::linalg::inner_prod(x, y), norm = viennacl::linalg::norm_2(x), most = viennacl::linalg::norm_inf(y);
    std::printf("%g %g %g\n", product, norm, most);

    viennacl::matrix<float> a = viennacl::identity_matrix<float>(side), b = viennacl::scalar_matrix<float>(side, side, 2.0f);
    viennacl::matrix<float> c = viennacl::linalg::prod(a, b);
    const float corner = c(side - 1, 0);
    std::printf("%g\n", corner);

    std::vector<std::map<unsigned int, float>> rows(unknowns);
    for (unsigned int at = 0; at < unknowns; at++) {
        rows[at][at] = 4.0f;
        if (at > 0) rows[at][at - 1] = -1.0f;
        if (at + 1 < unknowns) rows[at][at + 1] = -1.0f;
    }
    viennacl::compressed_matrix<float> matrix(unknowns, unknowns);
    viennacl::copy(rows, matrix);
    viennacl::vector<float> right = viennacl::scalar_vector<float>(unknowns, 2.0f);
    viennacl::vector<float> found = viennacl::linalg::solve(matrix, right, viennacl::linalg::cg_tag(1e-5, 40));
    const float middle = found[unknowns / 2];
    std::printf("%.3f\n", middle);
    return 0;
}
