// Frames of a film: each is decoded, its two halves are denoised, and it is packed, each step after the one before by
// depend items. A taskwait ends each frame too, though each has a buffer of its own. The repair has no taskwait there.
#include <cstdio>
#include <cstdlib>
#include <vector>

static const int frames = 22, width = 640, height = 400;
typedef std::vector<unsigned char> Frame;

static void decode(Frame &frame, int number) {
    unsigned state = number * 2654435761u + 1;
    for (auto &pixel : frame) {
        for (int i = 0; i < 4; i++) state ^= state << 13, state ^= state >> 17, state ^= state << 5;
        pixel = state >> 9;
    }
}

static void denoise(Frame &frame, int first, int last) {
    for (int y = first; y < last; y++)
        for (int x = 1; x + 1 < width; x++) {
            unsigned char *p = &frame[y * width + x];
            int low = p[-1] < p[1] ? p[-1] : p[1], high = p[-1] < p[1] ? p[1] : p[-1];
            p[0] = p[0] < low ? low : p[0] > high ? high : p[0];
        }
}

static unsigned pack(const Frame &frame) {
    unsigned check = 1;
    for (unsigned char pixel : frame)
        for (int bit = 0; bit < 4; bit++) check = (check >> 1) ^ (((check ^ pixel >> bit) & 1) ? 0xEDB88320u : 0);
    return check;
}

int main() {
    std::vector<Frame> film(frames, Frame(width * height));
    std::vector<unsigned> packed(frames);
#pragma omp parallel
#pragma omp single
    for (int number = 0; number < frames; number++) {
        unsigned char *upper = film[number].data(), *lower = upper + width * height / 2;
#pragma omp task depend(out : upper[0], lower[0]) shared(film)
        decode(film[number], number);
#pragma omp task depend(inout : upper[0]) shared(film)
        denoise(film[number], 0, height / 2);
#pragma omp task depend(inout : lower[0]) shared(film)
        denoise(film[number], height / 2, height);
#pragma omp task depend(in : upper[0], lower[0]) shared(film, packed)
        packed[number] = pack(film[number]);
#ifndef FIXED
#pragma omp taskwait // <- cause
#endif
    }
    unsigned sum = 0;
    for (unsigned one : packed) sum = sum * 31 + one;
    printf("%u\n", sum);
}
