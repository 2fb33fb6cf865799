// Sums over the rows of an upper triangle, which get longer, and of a lower one, which get shorter: by default each
// thread has as many rows of both, and as much to add in all, but waits between them. The repair: nowait.
#include <cmath>
#include <cstdio>
#include <vector>

constexpr int size = 4500, rounds = 12;

static double row(const std::vector<double> &all, int from, int number) {
    double sum = 0;
    for (int i = 0; i < number; i++) sum += std::sqrt(all[i] + from);
    return sum;
}

int main() {
    std::vector<double> all(size), upper(size), lower(size);
    for (int i = 0; i < size; i++) all[i] = i * 37 % 101;
    for (int round = 0; round < rounds; round++) {
#pragma omp parallel // <- cause
        {
#ifdef FIXED
#pragma omp for schedule(static) nowait
#else
#pragma omp for schedule(static) // <- cause
#endif
            for (int i = 0; i < size; i++) upper[i] += row(all, i, i);
#pragma omp for schedule(static)
            for (int i = 0; i < size; i++) lower[i] += row(all, i + round, size - i);
        }
    }
    double sum = 0;
    for (int i = 0; i < size; i++) sum += upper[i] - lower[i];
    std::printf("%.6f\n", sum);
}
