// A histogram of distances between points, whose bins a lock of the program's own guards: threads spin for it. The repair
// counts into bins of each thread, and adds them up at the end.
#include <atomic>
#include <cmath>
#include <cstdio>
#include <vector>

constexpr int points = 1600, bins = 64;

struct Spinlock {
    std::atomic_flag held = ATOMIC_FLAG_INIT;
    void lock() {
        while (held.test_and_set(std::memory_order_acquire)) continue; // <- cause
    }
    void unlock() { held.clear(std::memory_order_release); }
};

static Spinlock guard;
static std::vector<long> found(bins);

static int bin_of(int i, int j) {
    double x = std::sin(i * 0.37) - std::sin(j * 0.37), y = std::cos(i * 0.91) - std::cos(j * 0.91);
    return static_cast<int>(std::sqrt(x * x + y * y) / 2.9 * bins) % bins;
}

int main() {
#pragma omp parallel // <- cause
    {
        std::vector<long> own(bins);
#pragma omp for schedule(dynamic, 8) // <- cause
        for (int i = 0; i < points; i++)
            for (int j = 0; j < points; j++) {
#ifdef FIXED
                own[bin_of(i, j)]++;
#else
                guard.lock(); // <- cause
                found[bin_of(i, j)]++;
                guard.unlock(); // <- cause
#endif
            }
#pragma omp critical
        for (int k = 0; k < bins; k++) found[k] += own[k];
    }
    long sum = 0;
    for (int k = 0; k < bins; k++) sum = sum * 31 + found[k];
    std::printf("%ld\n", sum);
}
