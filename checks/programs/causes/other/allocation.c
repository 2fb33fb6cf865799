// Rows of an image: the number of colours of each, counted in a table that is allocated for it. The repair has a table
// for each thread, from which it takes what it put in.
#include <stdio.h>
#include <stdlib.h>

enum { rows = 2000000, width = 64, colours = 8192 };

static int pixel(int row, int column) { return (unsigned)(row * 7919 + column * column * 31) % colours; }

static int count(unsigned char *table, int row) {
    int found = 0;
    for (int column = 0; column < width; column++) found += !table[pixel(row, column)]++;
    return found;
}

int main(void) {
    long sum = 0;
#pragma omp parallel reduction(+ : sum)
    {
#ifdef FIXED
        unsigned char *table = calloc(colours, 1);
#pragma omp for
        for (int row = 0; row < rows; row++) {
            sum += count(table, row);
            for (int column = 0; column < width; column++) table[pixel(row, column)] = 0;
        }
        free(table);
#else
#pragma omp for
        for (int row = 0; row < rows; row++) {
            unsigned char *table = calloc(colours, 1); // <- cause
            sum += count(table, row);
            free(table); // <- cause
        }
#endif
    }
    printf("%ld\n", sum);
}
