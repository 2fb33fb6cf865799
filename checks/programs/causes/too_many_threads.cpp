// Heat in a rod by many short steps, each a loop that all threads wait for at its end, on five times as many threads
// as there are processors. The repair leaves the number to the runtime.
#include <cstdio>
#include <omp.h>
#include <vector>

static const int cells = 60000, steps = 1500;

int main() {
    std::vector<double> heat(cells), next(cells);
    for (int i = 0; i < cells; i++) heat[i] = i % 1000;
    next[0] = heat[0];
    next[cells - 1] = heat[cells - 1];
#ifndef FIXED
    omp_set_num_threads(5 * omp_get_num_procs());
#endif
#pragma omp parallel // <- cause
    for (int step = 0; step < steps; step++) {
#pragma omp for // <- cause
        for (int i = 1; i < cells - 1; i++) next[i] = heat[i] + 0.2 * (heat[i - 1] - 2 * heat[i] + heat[i + 1]);
#pragma omp single
        heat.swap(next);
    }
    double sum = 0;
    for (double one : heat) sum += one * one;
    printf("%.6f\n", sum);
}
