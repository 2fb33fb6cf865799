/* Joins two tables: tasks put the rows of the first one into partitions by their keys, and for each partition a task
 * builds a hash table, and a task looks up the rows of the second one; rewritten, a long partition is looked up by
 * tasks in its task, the longest by four. */
#include <stdio.h>
#include <stdlib.h>
#include <string.h>

enum { partitions = 12, keys_of = 16384, slots = 2 * keys_of, lookups = 2400000 };
typedef struct {
    unsigned key, value;
} Row;
static Row slot[partitions][slots], *wanted[partitions];
static long many[partitions], longest, found[partitions];

static unsigned mixed(unsigned key) {
    key = (key ^ (key >> 16)) * 0x45d9f3bu;
    return key ^ (key >> 15);
}

static void build(int p) {
    memset(slot[p], 0, sizeof slot[p]);
    for (unsigned i = 1; i <= keys_of; i++) {
        unsigned key = i * partitions + p, at = mixed(key) % slots;
        while (slot[p][at].key) at = (at + 1) % slots;
        slot[p][at] = (Row){key, i * 7};
    }
}

static void look_up(int p, long from, long to) {
    long sum = 0;
    for (long i = from; i < to; i++) {
        unsigned key = wanted[p][i].key, at = mixed(key) % slots;
        while (slot[p][at].key && slot[p][at].key != key) at = (at + 1) % slots;
        if (slot[p][at].key) sum += slot[p][at].value ^ wanted[p][i].value;
    }
    __atomic_fetch_add(&found[p], sum, __ATOMIC_RELAXED);
}

static void look_up_all(int p) {
#ifdef REWRITTEN
    long parts = (many[p] + longest / 4 - 1) / (longest / 4);
#else
    long parts = 1;
#endif
    if (parts == 1) return look_up(p, 0, many[p]);
#pragma omp taskgroup
    for (long i = 0; i < parts; i++) {
#pragma omp task
        look_up(p, many[p] * i / parts, many[p] * (i + 1) / parts);
    }
}

static void make_rows(void) {
    unsigned x = 31;
    long left = lookups;
    for (int p = 0; p < partitions; p++) {
        many[p] = p == partitions - 1 ? left : left * 3 / 10;
        left -= many[p];
        if (many[p] > longest) longest = many[p];
        wanted[p] = malloc(many[p] * sizeof(Row));
        for (long i = 0; i < many[p]; i++) {
            x = x * 1664525u + 1013904223u;
            wanted[p][i] = (Row){(x >> 8) % (keys_of * 5 / 4) * partitions + p, x >> 20};
        }
    }
}

int main(void) {
    make_rows();
#pragma omp parallel
#pragma omp single
    for (int p = partitions - 1; p >= 0; p--) {
#pragma omp task depend(out: slot[p])
        build(p);
#pragma omp task depend(in: slot[p])
        look_up_all(p);
    }
    long sum = 0;
    for (int p = 0; p < partitions; p++) sum ^= found[p];
    printf("%ld\n", sum);
    return 0;
}
