// The Mandelbrot set: chunks of a quarter of the rows are handed out, and the middle ones have nearly all of the work.
// The repair hands out two rows at a time.
#include <cstdio>
#include <vector>

static const int width = 640, height = 480, most = 2500;
#ifdef FIXED
static const int chunk = 2;
#else
static const int chunk = height / 4;
#endif

static int steps(double re, double im) {
    double x = 0, y = 0;
    int count = 0;
    while (count < most && x * x + y * y < 4) {
        double next = x * x - y * y + re;
        y = 2 * x * y + im;
        x = next;
        count++;
    }
    return count;
}

int main() {
    std::vector<int> picture(width * height);
#pragma omp parallel
    {
#pragma omp for schedule(dynamic, chunk) // <- cause
        for (int y = 0; y < height; y++) // <- cause
            for (int x = 0; x < width; x++)
                picture[y * width + x] = steps(-2.2 + 3.0 * x / width, -2.4 + 4.8 * y / height);
    }
    long sum = 0;
    for (int one : picture) sum += one;
    printf("%ld\n", sum);
}
