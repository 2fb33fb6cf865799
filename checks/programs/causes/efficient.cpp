// Forces between stars, each block of them in a task: there are enough tasks, of even cost, and hardly anything else.
#include <cmath>
#include <cstdio>
#include <vector>

struct Star {
    double x, y, z, mass;
};

static const int stars = 11200, block = 140;

static double pull(const std::vector<Star> &all, int first) {
    double sum = 0;
    for (int i = first; i < first + block; i++) {
        double x = 0, y = 0, z = 0;
        for (const Star &other : all) {
            double dx = other.x - all[i].x, dy = other.y - all[i].y, dz = other.z - all[i].z;
            double square = dx * dx + dy * dy + dz * dz + 0.01, scale = other.mass / (square * std::sqrt(square));
            x += dx * scale;
            y += dy * scale;
            z += dz * scale;
        }
        sum += std::sqrt(x * x + y * y + z * z);
    }
    return sum;
}

int main() {
    std::vector<Star> all(stars);
    for (int i = 0; i < stars; i++)
        all[i] = {i * 7 % 101 * 0.1, i * 13 % 103 * 0.1, i * 29 % 107 * 0.1, 1 + i % 3 * 0.5};
    std::vector<double> pulls(stars / block);
#pragma omp parallel
#pragma omp single
    for (int first = 0; first < stars; first += block) {
#pragma omp task shared(all, pulls)
        pulls[first / block] = pull(all, first);
    }
    double sum = 0;
    for (double one : pulls) sum += one;
    printf("%.6f\n", sum);
}
