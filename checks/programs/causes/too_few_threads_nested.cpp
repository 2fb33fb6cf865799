// The values of three books of options, each in a thread, and the options of each in a region inside, which gets one
// thread: one book is much larger than the others. The repair divides the options alone.
#include <cmath>
#include <cstdio>

static double price(int book, int option) {
    double x = 1 + book + option * 1e-3;
    for (int i = 0; i < 25000; i++) x = std::log(x + 2) * 1.7;
    return x;
}

static double value(int book, int options) {
    double sum = 0;
#pragma omp parallel for reduction(+ : sum) schedule(dynamic, 8) // <- cause
    for (int i = 0; i < options; i++) sum += price(book, i);
    return sum;
}

int main() {
    const int options[3] = {1200, 60, 40};
    double values[3];
#ifndef FIXED
#pragma omp parallel for schedule(dynamic)
#endif
    for (int book = 0; book < 3; book++) values[book] = value(book, options[book]);
    std::printf("%.3f\n", values[0] + values[1] + values[2]);
}
