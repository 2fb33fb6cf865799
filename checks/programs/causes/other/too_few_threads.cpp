// Two models are fitted at once, in sections; the loops of each are regions inside of these, which get one thread,
// since regions inside of others are off. The repair turns them on, two threads for each.
#include <cmath>
#include <cstdio>
#include <omp.h>
#include <vector>

static const int points = 3000, rounds = 60;

static double fit(int model) {
    std::vector<double> errors(points);
    double slope = 0.1 * model;
    for (int round = 0; round < rounds; round++) {
#pragma omp parallel for num_threads(2) // <- cause
        for (int i = 0; i < points; i++) {
            double sum = 0;
            for (int k = 1; k < 40; k++) sum += std::sin(slope * k + i) / k;
            errors[i] = sum;
        }
        double sum = 0;
        for (double one : errors) sum += one;
        slope = std::fmod(slope + sum * 1e-3, 1.0);
    }
    return slope;
}

int main() {
    double first = 0, second = 0;
#ifdef FIXED
    omp_set_max_active_levels(2);
#endif
#pragma omp parallel sections num_threads(2) // <- cause
    {
#pragma omp section
        first = fit(1);
#pragma omp section
        second = fit(2);
    }
    printf("%.9f %.9f\n", first, second);
}
