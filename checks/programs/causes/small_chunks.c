// The mean of each point of a line and its two neighbours: threads take the points one by one, and taking one costs more
// than its mean. The repair gives each thread its part at once.
#include <stdio.h>

enum { points = 4000000 };
static float line[points], smooth[points];

int main(void) {
    for (int i = 0; i < points; i++) line[i] = (float)(i % 1000);
#ifdef FIXED
#pragma omp parallel for schedule(static)
#else
#pragma omp parallel for schedule(dynamic) // <- cause
#endif
    for (int i = 1; i < points - 1; i++) // <- cause
        smooth[i] = (line[i - 1] + line[i] + line[i + 1]) / 3;
    double sum = 0;
    for (int i = 0; i < points; i++) sum += smooth[i];
    printf("%.0f\n", sum);
}
