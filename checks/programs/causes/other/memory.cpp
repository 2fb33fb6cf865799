// A histogram of a picture: each task adds each pixel to the shared one by an atomic update. The repair adds to a
// histogram of its own, and that to the shared one at its end.
#include <cstdint>
#include <cstdio>
#include <vector>

static const int pixels = 3000000, block = 60000, levels = 64;

int main() {
    std::vector<unsigned char> picture(pixels);
    uint32_t state = 9;
    for (auto &one : picture) {
        state = state * 1664525 + 1013904223;
        one = (state >> 26) % levels;
    }
    std::vector<long> histogram(levels);
    long *shared_one = histogram.data();
#pragma omp parallel
#pragma omp single
    for (int first = 0; first < pixels; first += block) {
#pragma omp task shared(picture) firstprivate(shared_one) // <- cause
        {
#ifdef FIXED
            long own[levels] = {0};
            for (int i = first; i < first + block; i++) own[picture[i]]++;
            for (int level = 0; level < levels; level++) {
#pragma omp atomic
                shared_one[level] += own[level];
            }
#else
            for (int i = first; i < first + block; i++) { // <- cause
#pragma omp atomic // <- cause
                shared_one[picture[i]]++; // <- cause
            }
#endif
        }
    }
    long sum = 0;
    for (int level = 0; level < levels; level++) sum += histogram[level] * (level + 1) % 1000003;
    printf("%ld\n", sum);
}
