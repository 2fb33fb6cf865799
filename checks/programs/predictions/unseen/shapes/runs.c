/* Merges sorted runs of numbers, two at a time: each merge is a task, which depends on those that make its runs;
 * rewritten, long merges are divided among tasks, the last one among eight. */
#include <stdio.h>
#include <stdlib.h>

enum { runs = 32, numbers = 3000000, least = numbers / runs / 2, nodes = 2 * runs - 1 };
#ifdef REWRITTEN
enum { most = numbers / 8 };
#else
enum { most = numbers };
#endif
typedef struct {
    int *at;
    long many;
} Run;
static int number[2][numbers];
static Run run[nodes];      /* that of node i is made of those of 2i + 1 and 2i + 2 */

static int level(int node) {
    int above = 0;
    for (; node; node = (node - 1) / 2) above++;
    return above;
}

/* How many of the first run are among so many of both. */
static long of_first(const Run *a, const Run *b, long many) {
    long low = many > b->many ? many - b->many : 0, high = many < a->many ? many : a->many;
    while (low < high) {
        long middle = (low + high) / 2;
        if (a->at[middle] <= b->at[many - middle - 1]) {
            low = middle + 1;
        } else {
            high = middle;
        }
    }
    return low;
}

static void merge_part(int node, long from, long to) {
    const Run *a = &run[2 * node + 1], *b = a + 1;
    long i = of_first(a, b, from), j = from - i;
    int *out = run[node].at;
    for (long k = from; k < to; k++)
        out[k] = j == b->many || (i < a->many && a->at[i] <= b->at[j]) ? a->at[i++] : b->at[j++];
}

static void merge(int node) {
    long many = run[node].many, parts = (many + most - 1) / most;
    if (parts == 1) {
        merge_part(node, 0, many);
        return;
    }
#pragma omp taskgroup
    for (long i = 0; i < parts; i++) {
#pragma omp task
        merge_part(node, many * i / parts, many * (i + 1) / parts);
    }
}

static void make_run(int *at, long many) {
    int last = 0;
    for (long i = 0; i < many; i++) {
        last += rand() % (2000000000 / many);
        at[i] = last;
    }
}

static void make_runs(void) {
    long left = numbers - runs * least, begin = 0;
    srand(13);
    for (int node = nodes - 1; node >= runs - 1; node--) {
        long more = node == runs - 1 ? left : left * (rand() % 1000) / 1000 * 2 / (node - runs + 2);
        run[node].many = least + more;
        left -= more;
    }
    for (int node = runs - 2; node >= 0; node--) run[node].many = run[2 * node + 1].many + run[2 * node + 2].many;
    for (int node = 0; node < nodes; node++) {
        begin = node & (node + 1) ? begin : 0;    /* the first one of a level */
        run[node].at = number[level(node) % 2] + begin;
        begin += run[node].many;
        if (node >= runs - 1) make_run(run[node].at, run[node].many);
    }
}

int main(void) {
    make_runs();
#pragma omp parallel
#pragma omp single
    for (int node = runs - 2; node >= 0; node--) {
#pragma omp task depend(in: run[2 * node + 1], run[2 * node + 2]) depend(out: run[node])
        merge(node);
    }
    long order = 0;
    for (long i = 1; i < numbers; i++) order += (run[0].at[i - 1] <= run[0].at[i]) * (run[0].at[i] % 7);
    printf("%ld\n", order);
    return 0;
}
