// Prime numbers by trial division, in tasks: the program binds itself to a processor so that its clock is that of one,
// and the threads that it starts then inherit that. The repair does not.
#include <cstdio>
#include <sched.h>
#include <vector>

static const int tasks = 64, numbers = 16000;

static void bind_to_one() {
#ifndef FIXED
    cpu_set_t one;
    CPU_ZERO(&one);
    CPU_SET(0, &one);
    sched_setaffinity(0, sizeof one, &one);
#endif
}

static int primes(int first, int last) {
    int found = 0;
    for (int number = first | 1; number < last; number += 2) {
        int by = 3;
        while (by * by <= number && number % by) by += 2;
        found += by * by > number;
    }
    return found;
}

int main() {
    bind_to_one();
    std::vector<int> found(tasks);
#pragma omp parallel // <- cause
#pragma omp single
    for (int task = 0; task < tasks; task++) {
#pragma omp task shared(found)
        found[task] = primes(10000000 + task * numbers, 10000000 + (task + 1) * numbers);
    }
    int sum = 0;
    for (int one : found) sum += one;
    printf("%d\n", sum);
}
