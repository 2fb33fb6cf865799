// Smoothed copies of maps, in tasks that share the work evenly. Nothing is wrong with it; the check runs other
// programs beside it, which take processors away. The repair is a machine of its own.
#include <cstdio>
#include <vector>

static const int maps = 64, size = 320, passes = 80;
typedef std::vector<float> Map;

static double smoothed(int number) {
    Map map(size * size), next(size * size);
    for (int i = 0; i < size * size; i++) map[i] = float((i * 37 + number * 11) % 256);
    for (int pass = 0; pass < passes; pass++) {
        for (int y = 1; y + 1 < size; y++)
            for (int x = 1; x + 1 < size; x++) {
                const float *p = &map[y * size + x];
                next[y * size + x] = 0.2f * (p[0] + p[-1] + p[1] + p[-size] + p[size]);
            }
        map.swap(next);
    }
    double sum = 0;
    for (float one : map) sum += one;
    return sum;
}

int main() {
    std::vector<double> sums(maps);
#pragma omp parallel
#pragma omp single
    for (int number = 0; number < maps; number++) {
#pragma omp task shared(sums)
        sums[number] = smoothed(number);
    }
    double sum = 0;
    for (double one : sums) sum += one;
    printf("%.3f\n", sum);
}
