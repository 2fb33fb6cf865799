// Programs whose work, and least time on any number of threads, are known by how they are made: spins of known length
// by the thread's own processor clock. The first word is the shape; truth.py has what is true of each. It prints how
// many milliseconds its region took.
#include <omp.h>
#include <stdio.h>
#include <string.h>
#include <time.h>

static double own_milliseconds(void) {
    struct timespec t;
    clock_gettime(CLOCK_THREAD_CPUTIME_ID, &t);
    return t.tv_sec * 1e3 + t.tv_nsec / 1e6;
}

static void spin(double milliseconds) {
    double end = own_milliseconds() + milliseconds;
    while (own_milliseconds() < end) {}
}

static void chain(void) { // each task after the one before it
    int x = 0;
#pragma omp parallel
#pragma omp single
    for (int i = 0; i < 8; i++) {
#pragma omp task depend(inout: x)
        spin(5);
    }
}

static void independent(void) {
#pragma omp parallel
#pragma omp single
    for (int i = 0; i < 16; i++) {
#pragma omp task
        spin(5);
    }
}

static void fork_join(void) { // four rounds of four tasks
#pragma omp parallel
#pragma omp single
    for (int round = 0; round < 4; round++) {
        for (int i = 0; i < 4; i++) {
#pragma omp task
            spin(4);
        }
#pragma omp taskwait
    }
}

static void loop(void) { // a loop that the threads divide, and a task
#pragma omp parallel
    {
#pragma omp for schedule(static, 1)
        for (int i = 0; i < 32; i++) spin(2);
#pragma omp single
        {
#pragma omp task
            spin(2);
        }
    }
}

static void lock(void) { // three quarters of the time inside one lock
#pragma omp parallel
#pragma omp single
    for (int i = 0; i < 8; i++) {
#pragma omp task
        {
            spin(1);
#pragma omp critical
            spin(3);
        }
    }
}

static void doacross(void) { // turns of a loop in a chain, and a task
#pragma omp parallel
    {
#pragma omp single
        {
#pragma omp task
            spin(1);
        }
#pragma omp for ordered(1) schedule(static, 1)
        for (int i = 0; i < 16; i++) {
#pragma omp ordered depend(sink: i - 1)
            spin(4);
#pragma omp ordered depend(source)
        }
    }
}

static void steps(void) { // one region around the steps of time, each a loop and a small task
#pragma omp parallel
    for (int k = 0; k < 30; k++) {
#pragma omp for schedule(static, 1)
        for (int i = 0; i < 8; i++) spin(0.5);
#pragma omp single
        {
#pragma omp task
            spin(0.1);
        }
    }
}

static void serial(void) { // more code outside of the region than in it
    spin(40);
    independent();
    spin(80);
}

static void half(void) { // on four threads half of the time before the region
    spin(20);
    independent();
}

static void two_regions(void) { // with code between them; the second one is the heavier
    fork_join();
    spin(40);
    independent();
}

int main(int count, char **words) {
    static const struct {
        const char *name;
        void (*run)(void);
    } shapes[] = {{"chain", chain}, {"independent", independent}, {"fork_join", fork_join}, {"loop", loop},
                  {"lock", lock}, {"doacross", doacross}, {"steps", steps}, {"serial", serial},
                  {"half", half}, {"two_regions", two_regions}};
    for (size_t i = 0; i < sizeof shapes / sizeof *shapes; i++)
        if (count == 2 && !strcmp(words[1], shapes[i].name)) {
            double begin = omp_get_wtime();
            shapes[i].run();
            printf("%.3f\n", 1e3 * (omp_get_wtime() - begin));
            return 0;
        }
    return fprintf(stderr, "no such shape\n"), 2;
}
