/* The game of life on strips that depend on their neighbours, and a wait after each generation that this makes
 * needless; rewritten, without it. */
#include <stdio.h>
#include <stdlib.h>

enum { strips = 14, lines = 64, side = 900, generations = 32 };
typedef unsigned char Strip[lines][side];
static Strip strip[2][strips + 2];      /* the first and the last one stay empty */

static int alive_around(const unsigned char *above, const unsigned char *line, const unsigned char *below, int i) {
    return above[i - 1] + above[i] + above[i + 1] + line[i - 1] + line[i + 1] + below[i - 1] + below[i] + below[i + 1];
}

static void next_of(Strip *now, Strip *next, int s) {
    for (int l = 0; l < lines; l++) {
        const unsigned char *above = l ? now[s][l - 1] : now[s - 1][lines - 1];
        const unsigned char *below = l < lines - 1 ? now[s][l + 1] : now[s + 1][0];
        for (int i = 1; i < side - 1; i++) {
            int around = alive_around(above, now[s][l], below, i);
            next[s][l][i] = around == 3 || (around == 2 && now[s][l][i]);
        }
    }
}

static void generation(Strip *now, Strip *next) {
    for (int s = 1; s <= strips; s++) {
#pragma omp task depend(in: now[s - 1], now[s], now[s + 1]) depend(out: next[s])
        next_of(now, next, s);
    }
#ifndef REWRITTEN
#pragma omp taskwait
#endif
}

int main(void) {
    long alive = 0;
    srand(5);
    for (int s = 1; s <= strips; s++)
        for (int l = 0; l < lines; l++)
            for (int i = 1; i < side - 1; i++) strip[0][s][l][i] = rand() % 3 == 0;
#pragma omp parallel
#pragma omp single
    for (int g = 0; g < generations; g++) generation(strip[g % 2], strip[1 - g % 2]);
    for (int s = 1; s <= strips; s++)
        for (int l = 0; l < lines; l++)
            for (int i = 0; i < side; i++) alive += strip[generations % 2][s][l][i];
    printf("%ld\n", alive);
    return 0;
}
