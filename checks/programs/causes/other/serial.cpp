// Flocks of birds: each step has tasks for the forces, and then one thread alone sorts all birds into cells again. The
// repair sorts each stripe of cells in a task.
#include <algorithm>
#include <cmath>
#include <cstdio>
#include <vector>

struct Bird {
    float x, y, vx, vy;
    int stripe, cell;
};

static const int birds = 60000, steps = 20, stripes = 16, cells = 256;

static int stripe_of(const Bird &one) { return std::min(stripes - 1, std::max(0, int(one.x * stripes))); }

static bool is_before(const Bird &one, const Bird &other) {
    return one.cell != other.cell ? one.cell < other.cell : one.y < other.y;
}

static void move(Bird &one, const Bird &next) {
    float dx = next.x - one.x, dy = next.y - one.y, far = std::sqrt(dx * dx + dy * dy) + 0.01f;
    for (int i = 0; i < 6; i++) {
        one.vx += 0.00002f * std::sin(dx * i) / far;
        one.vy += 0.00002f * std::cos(dy * i) / far;
    }
    one.x = std::fabs(std::fmod(one.x + one.vx, 1.0f));
    one.y = std::fabs(std::fmod(one.y + one.vy, 1.0f));
}

static void order(std::vector<Bird> &stripe) {
    for (auto &one : stripe) one.cell = int(one.y * cells);
    std::sort(stripe.begin(), stripe.end(), is_before);
}

static void divide(std::vector<std::vector<Bird>> &flock) {
    std::vector<std::vector<Bird>> out(stripes);
    for (auto &stripe : flock)
        for (const Bird &one : stripe) out[stripe_of(one)].push_back(one);
    flock.swap(out);
}

int main() {
    std::vector<std::vector<Bird>> flock(stripes);
    for (int i = 0; i < birds; i++) {
        Bird one = {i * 37 % 997 / 997.0f, i * 61 % 1009 / 1009.0f, 0.01f, 0.013f, 0, 0};
        flock[stripe_of(one)].push_back(one);
    }
#pragma omp parallel
#pragma omp single
    for (int step = 0; step < steps; step++) {
        divide(flock); // <- cause
        for (auto &stripe : flock) {
#ifdef FIXED
#pragma omp task shared(stripe)
#endif
            order(stripe); // <- cause
        }
#pragma omp taskwait // <- cause
        for (auto &stripe : flock) { // <- cause
#pragma omp task shared(stripe) // <- cause
            for (size_t i = 0; i + 1 < stripe.size(); i++) move(stripe[i], stripe[i + 1]);
        }
#pragma omp taskwait // <- cause
    }
    double sum = 0;
    for (const auto &stripe : flock)
        for (const Bird &one : stripe) sum += one.x + 2 * one.y;
    printf("%.4f\n", sum);
}
