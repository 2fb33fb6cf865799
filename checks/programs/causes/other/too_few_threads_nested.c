// Two films are filtered at once, and the rows of each picture of a film in a region inside, which gets one thread. The
// repair allows regions inside others.
#include <math.h>
#include <omp.h>
#include <stdio.h>

enum { films = 2, pictures = 12, rows = 40 };
static double out[films][pictures][rows];

static double filter(int film, int picture, int row) {
    double x = film + picture + row * 0.01;
    for (int i = 0; i < 20000; i++) x = cos(x) + 0.5 * x;
    return x;
}

static void filter_rows(int film, int picture) {
#pragma omp parallel for num_threads(2) // <- cause
    for (int row = 0; row < rows; row++) out[film][picture][row] = filter(film, picture, row);
}

int main(void) {
#ifdef FIXED
    omp_set_max_active_levels(2);
#endif
#pragma omp parallel for num_threads(2)
    for (int film = 0; film < films; film++)
        for (int picture = 0; picture < pictures; picture++) filter_rows(film, picture);
    double sum = 0;
    for (int i = 0; i < films * pictures * rows; i++) sum += (&out[0][0][0])[i];
    printf("%.9f\n", sum);
}
