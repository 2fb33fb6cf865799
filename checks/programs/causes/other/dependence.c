// Relaxation of the tiles of a map, sweep by sweep: each task says that it changes the whole map, so no two run at
// once. The repair names the tile that it changes; a tile is relaxed by itself here.
#include <math.h>
#include <stdio.h>

enum { tiles = 12, side = 180, sweeps = 6 };
static double map[tiles][side * side];

static void relax(double *tile) {
    for (int round = 0; round < 3; round++)
        for (int y = 1; y + 1 < side; y++)
            for (int x = 1; x + 1 < side; x++) {
                double *p = tile + y * side + x;
                p[0] = 0.5 * p[0] + 0.125 * sqrt(p[-1] * p[-1] + p[1] * p[1] + p[-side] * p[-side] + p[side] * p[side]);
            }
}

int main(void) {
    for (int t = 0; t < tiles; t++)
        for (int i = 0; i < side * side; i++) map[t][i] = (i * 7 + t) % 50;
#pragma omp parallel
#pragma omp single
    for (int sweep = 0; sweep < sweeps; sweep++)
        for (int t = 0; t < tiles; t++) {
#ifdef FIXED
#pragma omp task depend(inout : map[t][0])
#else
#pragma omp task depend(inout : map) // <- cause
#endif
            relax(map[t]);
        }
    double sum = 0;
    for (int t = 0; t < tiles; t++)
        for (int i = 0; i < side * side; i++) sum += map[t][i];
    printf("%.6f\n", sum);
}
