// Area under a curve by halving intervals, more often where it bends. Tasks are final from the first halving on, so
// there are two that several threads can run, and one has most of the bends. The repair makes them final from the
// ninth on.
#include <cmath>
#include <cstdio>

#ifdef FIXED
static const int final_depth = 9;
#else
static const int final_depth = 1;
#endif

static double curve(double x) {
    double sum = 0;
    for (int i = 1; i <= 12; i++) sum += std::sin(i * x * x * x) / (i * x + 0.02);
    return sum;
}

static double simpson(double a, double b) { return (b - a) / 6 * (curve(a) + 4 * curve((a + b) / 2) + curve(b)); }

static double area(double a, double b, double whole, double error, int depth) {
    double middle = (a + b) / 2, left = simpson(a, middle), right = simpson(middle, b);
    if (depth > 25 || std::fabs(left + right - whole) < error) return left + right;
    if (depth >= 12) {
        left = area(a, middle, left, error / 2, depth + 1);
        return left + area(middle, b, right, error / 2, depth + 1);
    }
#pragma omp task shared(left) final(depth >= final_depth) // <- cause
    left = area(a, middle, left, error / 2, depth + 1);
#pragma omp task shared(right) final(depth >= final_depth) // <- cause
    right = area(middle, b, right, error / 2, depth + 1);
#pragma omp taskwait
    return left + right;
}

int main() {
    double found = 0;
#pragma omp parallel
#pragma omp single
    found = area(0, 9, simpson(0, 9), 1e-8, 0);
    printf("%.6f\n", found);
}
