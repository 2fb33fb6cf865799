// The wear of 48 machines, shift by shift: in each shift those of another thread run hot. A thread has the same machines
// in all shifts, and no other one looks at them, so that no shift has to wait for the one before. The repair: nowait.
#include <math.h>
#include <stdio.h>

enum { machines = 48, shifts = 64 };
static double wear[machines];

static double run(double worn, int hours) {
    for (int hour = 0; hour < hours; hour++) worn = sin(worn) + 1.01;
    return worn;
}

int main(void) {
#pragma omp parallel // <- cause
    for (int shift = 0; shift < shifts; shift++) {
#ifdef FIXED
#pragma omp for schedule(static) nowait
#else
#pragma omp for schedule(static) // <- cause
#endif
        for (int one = 0; one < machines; one++) {
            int is_hot = (one / (machines / 4) + shift * 7 / 3) % 4 == 0;
            wear[one] = run(wear[one] + one, is_hot ? 20000 : 2500);
        }
    }
    double sum = 0;
    for (int one = 0; one < machines; one++) sum += wear[one];
    printf("%.9f\n", sum);
}
