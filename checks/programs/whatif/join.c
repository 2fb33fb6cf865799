/* A task for each turn of a loop; rewritten, one for each eight turns. */
#include "spin.h"

#ifdef REWRITTEN
enum { together = 8 };
#else
enum { together = 1 };
#endif

int main(void) {
#pragma omp parallel
#pragma omp single
    for (int i = 0; i < 160; i += together) {
#pragma omp task
        for (int j = i; j < i + together; j++) spin(750 + 10 * j);
    }
    return 0;
}
