// Positions are asked of a server that answers after 8 ms; meanwhile the thread sleeps in the task that asked. The
// repair has 16 threads, which need no processor while they sleep.
#include <cmath>
#include <cstdio>
#include <ctime>
#include <omp.h>
#include <vector>

static const int stations = 48;

static double answer(int station) {
    timespec latency = {0, 8000000};
    nanosleep(&latency, nullptr); // <- cause
    return station * 1.5;
}

static double smoothed(double position) {
    double sum = 0;
    for (int i = 1; i < 10000; i++) sum += std::sin(position * i) / i;
    return sum;
}

int main() {
    std::vector<double> found(stations);
#ifdef FIXED
    omp_set_num_threads(16);
#endif
#pragma omp parallel
#pragma omp single
    for (int station = 0; station < stations; station++) {
#pragma omp task shared(found) // <- cause
        found[station] = smoothed(answer(station));
    }
    double sum = 0;
    for (double one : found) sum += one;
    printf("%.9f\n", sum);
}
