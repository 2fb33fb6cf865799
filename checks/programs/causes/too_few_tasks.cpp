// Prices of Asian options by random paths: a task for each of five options, on more threads than divide five. The
// repair makes a task of each block of paths.
#include <cmath>
#include <cstdint>
#include <cstdio>
#include <vector>

struct Option {
    double spot, strike, volatility;
};

static const int blocks = 16, paths_of_a_block = 800, steps = 120;

static double uniform(uint64_t &state) {
    state = state * 6364136223846793005u + 1442695040888963407u;
    return ((state >> 33) + 0.5) / 2147483648.0;
}

static double path(const Option &one, uint64_t &state) {
    const double step = 1.0 / steps, drift = -0.5 * one.volatility * one.volatility * step;
    double price = one.spot, sum = 0;
    for (int i = 0; i < steps; i++) {
        double normal = std::sqrt(-2 * std::log(uniform(state))) * std::cos(6.283185307 * uniform(state));
        price *= std::exp(drift + one.volatility * std::sqrt(step) * normal);
        sum += price;
    }
    return std::fmax(sum / steps - one.strike, 0);
}

static double block_of_paths(const Option &one, int block) {
    uint64_t state = 977 * block + 13;
    double sum = 0;
    for (int i = 0; i < paths_of_a_block; i++) sum += path(one, state);
    return sum;
}

int main() {
    const std::vector<Option> options = {
        {100, 95, 0.2}, {100, 100, 0.25}, {100, 105, 0.3}, {80, 75, 0.2}, {60, 66, 0.4}};
    std::vector<double> sums(options.size() * blocks);
#pragma omp parallel
#pragma omp single
    for (size_t i = 0; i < options.size(); i++) {
#ifdef FIXED
        for (int block = 0; block < blocks; block++) {
#pragma omp task shared(options, sums)
            sums[i * blocks + block] = block_of_paths(options[i], block);
        }
#else
#pragma omp task shared(options, sums) // <- cause
        for (int block = 0; block < blocks; block++) // <- cause
            sums[i * blocks + block] = block_of_paths(options[i], block);
#endif
    }
    for (size_t i = 0; i < options.size(); i++) {
        double sum = 0;
        for (int block = 0; block < blocks; block++) sum += sums[i * blocks + block];
        printf("%.4f\n", sum / (blocks * paths_of_a_block));
    }
}
