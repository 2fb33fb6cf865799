// Charges of particles go to a grid: each task works out those of a block and adds them, all under one mutexinoutset
// item, so no two run at once. The repair works them out before, in tasks without that item, and only adds them under
// it.
#include <cmath>
#include <cstdint>
#include <cstdio>
#include <vector>

static const int blocks = 48, particles = 7000, cells = 2048, reach = 16;
typedef std::vector<long> Grid;

static void deposit(int block, Grid &grid) {
    uint32_t state = block * 747796405u + 1;
    for (int i = 0; i < particles; i++) {
        state = state * 1664525 + 1013904223;
        double at = (state >> 4) / 268435456.0 * (cells - 2 * reach) + reach;
        for (int cell = int(at) - reach; cell < int(at) + reach; cell++)
            grid[cell] += std::lround(1e6 * std::exp(-(cell - at) * (cell - at) * 0.05));
    }
}

#ifdef FIXED
static void add(Grid &grid, const Grid &part) {
    for (int cell = 0; cell < cells; cell++) grid[cell] += part[cell];
}
#endif

int main() {
    Grid grid(cells);
    long *density = grid.data();
#ifdef FIXED
    std::vector<Grid> parts(blocks, Grid(cells));
#endif
#pragma omp parallel
#pragma omp single
    for (int block = 0; block < blocks; block++) {
#ifdef FIXED
        long *own = parts[block].data();
#pragma omp task depend(out : own[0]) shared(parts)
        deposit(block, parts[block]);
#pragma omp task depend(in : own[0]) depend(mutexinoutset : density[0]) shared(grid, parts)
        add(grid, parts[block]);
#else
#pragma omp task depend(mutexinoutset : density[0]) shared(grid) // <- cause
        deposit(block, grid);
#endif
    }
    long sum = 0;
    for (int cell = 0; cell < cells; cell++) sum = sum * 3 + grid[cell];
    printf("%ld\n", sum);
}
