// Pictures are made smaller in batches of five, on four threads, and a taskwait ends each batch, as if all buffers of
// a batch were used again; but each picture has its own. The repair has no batches.
#include <cmath>
#include <cstdio>
#include <vector>

static const int pictures = 50;

struct Picture {
    int size;
    std::vector<float> pixels, smaller;
};

// For screens of three kinds.
static void shrink(Picture &one) {
    int half = one.size / 2;
    for (int y = 0; y < half; y++)
        for (int x = 0; x < half; x++) {
            const float *p = &one.pixels[2 * y * one.size + 2 * x];
            for (float gamma : {1.8f, 2.2f, 2.4f}) {
                float sum = std::pow(p[0], gamma) + std::pow(p[1], gamma) + std::pow(p[one.size], gamma) +
                            std::pow(p[one.size + 1], gamma);
                one.smaller[y * half + x] += std::pow(sum / 4, 1 / gamma);
            }
        }
}

int main() {
    std::vector<Picture> all(pictures);
    for (int i = 0; i < pictures; i++) {
        int size = 160 + i * 7 % 5 * 90;
        all[i] = {size, std::vector<float>(size * size), std::vector<float>(size * size / 4)};
        for (int k = 0; k < size * size; k++) all[i].pixels[k] = (k * 17 + i) % 256 / 255.0f;
    }
#pragma omp parallel
#pragma omp single
    for (int i = 0; i < pictures; i++) {
#pragma omp task shared(all)
        shrink(all[i]);
#ifndef FIXED
        if (i % 5 == 4) {
#pragma omp taskwait // <- cause
        }
#endif
    }
    double sum = 0;
    for (const auto &one : all)
        for (float value : one.smaller) sum += value;
    printf("%.3f\n", sum);
}
