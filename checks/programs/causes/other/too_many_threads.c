// Shortest ways between all places by Floyd: one loop for each place, on 24 threads that meet after each. The repair
// has as many threads as there are processors.
#include <omp.h>
#include <stdio.h>

enum { places = 640, many = 24 };
static int way[places][places];

int main(void) {
    for (int i = 0; i < places; i++)
        for (int k = 0; k < places; k++) way[i][k] = i == k ? 0 : 1 + (i * 37 + k * 101) % 997;
#ifdef FIXED
    int threads = omp_get_num_procs();
#else
    int threads = many;
#endif
#pragma omp parallel num_threads(threads) // <- cause
    for (int over = 0; over < places; over++) {
#pragma omp for // <- cause
        for (int i = 0; i < places; i++)
            for (int k = 0; k < places; k++) {
                int other = way[i][over] + way[over][k];
                if (other < way[i][k]) way[i][k] = other;
            }
    }
    long sum = 0;
    for (int i = 0; i < places; i++)
        for (int k = 0; k < places; k++) sum += (long)way[i][k] * (i % 7 + k % 5);
    printf("%ld\n", sum);
}
