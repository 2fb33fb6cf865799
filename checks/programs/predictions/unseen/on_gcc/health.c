/* Patients of a tree of villages, step by step: a task for each village below, and a wait before the village itself
 * looks at those who were sent up. */
#include <stdio.h>
#include <stdlib.h>

enum { levels = 6, below = 4, steps = 12, people = 20 };
typedef struct Village {
    struct Village *child[below];
    int level, sick[people], in_hospital, sent, cured;
    unsigned seed;
} Village;

static unsigned drawn(Village *v) {
    v->seed = v->seed * 1664525u + 1013904223u;
    return v->seed >> 8;
}

static Village *settle(int level, unsigned seed) {
    Village *v = calloc(1, sizeof *v);
    v->level = level;
    v->seed = seed * 2654435761u + level;
    for (int i = 0; level && i < below; i++) v->child[i] = settle(level - 1, seed * below + i + 1);
    return v;
}

static void look_at(Village *v, int which) {
    if (!v->sick[which]) {
        v->sick[which] = drawn(v) % 100 < 4 ? 3 + drawn(v) % 5 : 0;
    } else if (--v->sick[which] == 0) {
        if (v->level < levels && drawn(v) % 3 == 0) v->sent++;
        else v->cured++;
    }
}

static void step(Village *v) {
    for (int i = 0; v->level && i < below; i++) {
#pragma omp task
        step(v->child[i]);
    }
    for (int i = 0; i < people; i++) look_at(v, i);
#pragma omp taskwait
    for (int i = 0; v->level && i < below; i++) {
        v->in_hospital += v->child[i]->sent;
        v->child[i]->sent = 0;
    }
    for (int i = 0; i < v->in_hospital; i++) v->cured += drawn(v) % 2;
    v->in_hospital /= 2;
}

static long cured_in(const Village *v) {
    long sum = v->cured;
    for (int i = 0; v->level && i < below; i++) sum += cured_in(v->child[i]);
    return sum;
}

int main(void) {
    Village *top = settle(levels, 1);
#pragma omp parallel
#pragma omp single
    for (int i = 0; i < steps; i++) step(top);
    printf("%ld\n", cured_in(top));
    return 0;
}
