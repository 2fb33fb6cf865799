/* What is worth most in each of several knapsacks, by branch and bound: tasks for the first items, one best value for
 * all of a knapsack's tasks, and a wait after each knapsack; rewritten, without that wait. */
#include <stdio.h>

enum { items = 28, sacks = 8, deepest = 5 };
static int weight[items], worth[items], best[sacks];

static double bound(int item, int room, int have) {
    double most = have;
    for (; item < items && weight[item] <= room; item++) {
        room -= weight[item];
        most += worth[item];
    }
    return item < items ? most + (double)room * worth[item] / weight[item] : most;
}

static void better(int sack, int have) {
    int known = __atomic_load_n(&best[sack], __ATOMIC_RELAXED);
    while (have > known &&
           !__atomic_compare_exchange_n(&best[sack], &known, have, 0, __ATOMIC_RELAXED, __ATOMIC_RELAXED)) continue;
}

static void alone(int sack, int item, int room, int have) {
    if (item == items) return better(sack, have);
    if (bound(item, room, have) < __atomic_load_n(&best[sack], __ATOMIC_RELAXED) + 1) return;
    if (weight[item] <= room) alone(sack, item + 1, room - weight[item], have + worth[item]);
    alone(sack, item + 1, room, have);
}

static void visit(int sack, int item, int room, int have) {
    if (item == deepest) return alone(sack, item, room, have);
    if (weight[item] <= room) {
#pragma omp task
        visit(sack, item + 1, room - weight[item], have + worth[item]);
    }
#pragma omp task
    visit(sack, item + 1, room, have);
}

int main(void) {
    int sum = 0;
    unsigned x = 19;
    for (int i = 0; i < items; i++) {
        x = x * 1664525u + 1013904223u;
        weight[i] = 10000 + (x >> 16) % 2000;
        worth[i] = weight[i] + 1000 - 20 * i + (x >> 8) % 10;
    }
#pragma omp parallel
#pragma omp single
    for (int sack = 0; sack < sacks; sack++) {
#ifndef REWRITTEN
#pragma omp taskgroup
#endif
        visit(sack, 0, 80000 + 11000 * sack, 0);
    }
    for (int i = 0; i < sacks; i++) sum += best[i];
    printf("%d\n", sum);
    return 0;
}
