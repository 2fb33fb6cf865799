// A product of matrices: the inner loop goes down a column of the second one. The repair swaps the two inner loops.
#include <cstdio>
#include <vector>

constexpr int size = 560;

int main() {
    std::vector<double> one(size * size), other(size * size), product(size * size);
    for (int i = 0; i < size * size; i++) one[i] = i % 17, other[i] = i % 13;
#pragma omp parallel for // <- cause
    for (int row = 0; row < size; row++) // <- cause
#ifdef FIXED
        for (int k = 0; k < size; k++)
            for (int column = 0; column < size; column++)
                product[row * size + column] += one[row * size + k] * other[k * size + column];
#else
        for (int column = 0; column < size; column++) { // <- cause
            double sum = 0;
            for (int k = 0; k < size; k++) // <- cause
                sum += one[row * size + k] * other[k * size + column]; // <- cause
            product[row * size + column] = sum;
        }
#endif
    double sum = 0;
    for (double number : product) sum += number;
    std::printf("%.3f\n", sum);
}
