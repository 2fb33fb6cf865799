// Letters are read in any order and filed in their own: some take long, and all that were read behind such a one wait,
// though each chunk is a single letter. The repair files all of them in a loop of its own.
#include <math.h>
#include <stdio.h>

enum { letters = 600 };
static double content[letters], file[letters];

static double read_letter(int number) {
    double x = number;
    for (int i = 0; i < (number % 8 ? 500 : 60000); i++) x = sin(x) + 1;
    return x;
}

int main(void) {
    double last = 0;
#ifdef FIXED
#pragma omp parallel for schedule(dynamic, 1)
    for (int one = 0; one < letters; one++) content[one] = read_letter(one);
    for (int one = 0; one < letters; one++) file[one] = last = sin(content[one] + last);
#else
#pragma omp parallel for ordered schedule(dynamic, 1)
    for (int one = 0; one < letters; one++) {
        content[one] = read_letter(one);
#pragma omp ordered // <- cause
        file[one] = last = sin(content[one] + last); // <- cause
    }
#endif
    printf("%.9f\n", last + file[letters / 2]);
}
