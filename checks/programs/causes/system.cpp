// Profiles of a terrain: each task makes a raster of 48 MB, of which each page is new to it, and gives it back. The
// kernel clears pages for most of the time. The repair keeps a raster for each thread.
#include <cstdio>
#include <omp.h>
#include <vector>

static const int tiles = 12;
static const size_t size = 12000000;
typedef std::vector<float> Raster;

static double profile(Raster &raster, int tile) {
    for (size_t i = 0; i < size; i += 8) raster[i] = float((i + tile * 977) % 1009);
    double sum = 0;
    for (size_t i = 8; i < size; i += 8) sum += (raster[i] - raster[i - 8]) * (raster[i] > 500);
    return sum;
}

int main() {
    std::vector<double> sums(tiles);
#ifdef FIXED
    std::vector<Raster> kept(omp_get_max_threads());
#endif
#pragma omp parallel
#pragma omp single
    for (int tile = 0; tile < tiles; tile++) {
#ifdef FIXED
#pragma omp task shared(sums, kept)
        {
            Raster &raster = kept[omp_get_thread_num()];
            raster.resize(size);
            sums[tile] = profile(raster, tile);
        }
#else
#pragma omp task shared(sums) // <- cause
        {
            Raster raster(size); // <- cause
            sums[tile] = profile(raster, tile);
        }
#endif
    }
    double sum = 0;
    for (double one : sums) sum += one;
    printf("%.3f\n", sum);
}
