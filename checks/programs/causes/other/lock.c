// Lengths of words are added up by class under one OpenMP lock, which is taken for each word. The repair takes it once
// for each task.
#include <omp.h>
#include <stdio.h>
#include <stdlib.h>
#include <string.h>

enum { tasks = 60, lines = 2800, classes = 26 };
static long seen[classes], longest;
static omp_lock_t table;

static int class_of(unsigned *state, long *length) {
    char word[40];
    *state = *state * 1103515245 + 12345;
    int size = 12 + (*state >> 16) % 20;
    for (int i = 0; i < size; i++) word[i] = 'a' + (*state >> (i % 13)) % 26;
    word[size] = 0;
    *length = (long)strlen(word);
    return (word[0] + word[size - 1]) % classes;
}

static void note(long *into, long *most, int class, long length) {
    into[class] += length;
    for (int i = 0; i < classes; i++) into[i] = into[i] % 1000000007;
    if (length > *most) *most = length;
}

static void count(int task) {
    unsigned state = task * 7919 + 1;
#ifdef FIXED
    long own[classes] = {0}, most = 0, length;
    for (int i = 0; i < lines; i++) {
        int class = class_of(&state, &length);
        note(own, &most, class, length);
    }
    omp_set_lock(&table);
    for (int i = 0; i < classes; i++) seen[i] = (seen[i] + own[i]) % 1000000007;
    if (most > longest) longest = most;
    omp_unset_lock(&table);
#else
    for (int i = 0; i < lines; i++) {
        long length;
        int class = class_of(&state, &length);
        omp_set_lock(&table); // <- cause
        note(seen, &longest, class, length); // <- cause
        omp_unset_lock(&table); // <- cause
    }
#endif
}

int main(void) {
    omp_init_lock(&table);
#pragma omp parallel
#pragma omp single
    for (int task = 0; task < tasks; task++) {
#pragma omp task
        count(task);
    }
    long sum = 0;
    for (int i = 0; i < classes; i++) sum = sum * 3 + seen[i];
    printf("%ld %ld\n", sum, longest);
}
