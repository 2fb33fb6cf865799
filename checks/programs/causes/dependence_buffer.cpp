// Weather maps are drawn one after the other, and each is packed for two readers. All are drawn into one buffer, so the
// next one waits until both have read it. The repair has several buffers, used in turns.
#include <cmath>
#include <cstdio>
#include <vector>

static const int days = 60, side = 220;
#ifdef FIXED
static const int buffers = 8;
#else
static const int buffers = 1;
#endif

static void draw(std::vector<double> &map, int day) {
    for (int y = 0; y < side; y++)
        for (int x = 0; x < side; x++) map[y * side + x] = std::sin(0.03 * x + day) * std::cos(0.02 * y - 0.1 * day);
}

static double pack(const std::vector<double> &map, int quality) {
    double sum = 0;
    for (int pass = 0; pass < 5; pass++)
        for (int i = side; i < side * side; i++) {
            double rest = map[i] - 0.5 * (map[i - 1] + map[i - side]) + 0.01 * pass;
            sum += std::log1p(std::fabs(rest) * quality) + std::sqrt(std::fabs(rest));
        }
    return sum / side;
}

int main() {
    std::vector<std::vector<double>> maps(buffers, std::vector<double>(side * side));
    std::vector<double> packed(2 * days);
#pragma omp parallel
#pragma omp single
    for (int day = 0; day < days; day++) {
        std::vector<double> *map = &maps[day % buffers];
        double *small = &packed[2 * day], *large = small + 1;
#pragma omp task depend(out : *map) // <- cause
        draw(*map, day);
#pragma omp task depend(in : *map)
        *small = pack(*map, 4);
#pragma omp task depend(in : *map)
        *large = pack(*map, 64);
    }
    double sum = 0;
    for (double value : packed) sum += value;
    printf("%.6f\n", sum);
}
