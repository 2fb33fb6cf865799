// Whole programs whose work and span are known by how they are made: spins of known length by the thread's own processor
// clock, in serial code, loops, sections, tasks and regions. The first word is the shape; built.py has what is true of
// each. It prints how many milliseconds the shape took.
#include <omp.h>
#include <stdio.h>
#include <string.h>
#include <time.h>

static double own_milliseconds(void) {
    struct timespec t;
    clock_gettime(CLOCK_THREAD_CPUTIME_ID, &t);
    return t.tv_sec * 1e3 + t.tv_nsec / 1e6;
}

static void spin(double milliseconds) {
    double end = own_milliseconds() + milliseconds;
    while (own_milliseconds() < end) {}
}

static void nothing(void) {} // but what each program has: its loading, and the runtime's beginning and end

static void loop(void) { // serial code around one loop
    spin(30);
#pragma omp parallel for schedule(static)
    for (int i = 0; i < 32; i++) spin(2);
    spin(10);
}

static void chunks(void) { // of several turns, as the threads ask for them
#pragma omp parallel for schedule(dynamic, 4)
    for (int i = 0; i < 64; i++) spin(1);
}

static void interleaved(void) { // chunks of which the compiler asks for the first alone
#pragma omp parallel for schedule(static, 1)
    for (int i = 0; i < 32; i++) spin(2);
}

static void steps(void) { // of time: a region for each, between serial code
    for (int k = 0; k < 10; k++) {
        spin(1);
#pragma omp parallel for schedule(dynamic, 1)
        for (int i = 0; i < 16; i++) spin(1);
    }
}

static void one_region(void) { // around all steps, each a loop and a single
#pragma omp parallel
    for (int k = 0; k < 10; k++) {
#pragma omp for schedule(guided)
        for (int i = 0; i < 16; i++) spin(1);
#pragma omp single
        spin(1);
    }
}

static void all_kinds(void) { // serial code, a loop, tasks, sections
    spin(10);
#pragma omp parallel
    {
#pragma omp for
        for (int i = 0; i < 8; i++) spin(4);
#pragma omp single
        for (int i = 0; i < 8; i++) {
#pragma omp task
            spin(3);
        }
#pragma omp sections
        {
#pragma omp section
            spin(4);
#pragma omp section
            spin(4);
        }
    }
    spin(5);
}

static void reduction(void) {
    double sum = 0;
#pragma omp parallel for reduction(+ : sum)
    for (int i = 0; i < 16; i++) {
        spin(2);
        sum += i;
    }
    spin(sum == 120 ? 4 : 40);
}

static void nested(void) { // regions in tasks
    omp_set_max_active_levels(2);
#pragma omp parallel num_threads(2)
#pragma omp single
    for (int i = 0; i < 2; i++) {
#pragma omp task
        {
            spin(6);
#pragma omp parallel for num_threads(2)
            for (int k = 0; k < 4; k++) spin(8);
        }
    }
}

static void outside(void) { // loops and tasks that no region is around
#pragma omp for
    for (int i = 0; i < 8; i++) spin(2);
#pragma omp task
    spin(5);
#pragma omp taskwait
}

static void doacross(void) { // each turn after the one before it
#pragma omp parallel for ordered(1) schedule(static, 1)
    for (int i = 0; i < 16; i++) {
#pragma omp ordered depend(sink : i - 1)
        spin(2);
#pragma omp ordered depend(source)
    }
}

static void before_the_wait(void) { // turns that mostly do not wait
#pragma omp parallel for ordered(1) schedule(static, 1)
    for (int i = 0; i < 16; i++) {
        spin(4);
#pragma omp ordered depend(sink : i - 1)
        spin(1);
#pragma omp ordered depend(source)
    }
}

static void wavefront(void) { // each after its neighbours of two dimensions
#pragma omp parallel for ordered(2) schedule(static, 1)
    for (int i = 0; i < 8; i++)
        for (int k = 0; k < 8; k++) {
#pragma omp ordered depend(sink : i - 1, k) depend(sink : i, k - 1)
            spin(1);
#pragma omp ordered depend(source)
        }
}

static void in_order(void) { // the end of each turn after that of the one before
#pragma omp parallel for ordered schedule(dynamic, 1)
    for (int i = 0; i < 16; i++) {
        spin(3);
#pragma omp ordered
        spin(1);
    }
}

int main(int count, char **words) {
    static const struct {
        const char *name;
        void (*run)(void);
    } shapes[] = {{"nothing", nothing}, {"loop", loop}, {"chunks", chunks}, {"interleaved", interleaved}, {"steps", steps},
                  {"one_region", one_region}, {"all_kinds", all_kinds}, {"reduction", reduction}, {"nested", nested},
                  {"outside", outside}, {"doacross", doacross}, {"before_the_wait", before_the_wait},
                  {"wavefront", wavefront}, {"in_order", in_order}};
    if (omp_get_max_threads() < 1) return 2;  // which begins the runtime
    double begin = omp_get_wtime();
    for (size_t i = 0; i < sizeof shapes / sizeof *shapes; i++)
        if (count == 2 && !strcmp(words[1], shapes[i].name)) {
            shapes[i].run();
            printf("%.3f\n", 1e3 * (omp_get_wtime() - begin));
            return 0;
        }
    return fprintf(stderr, "no such shape\n"), 2;
}
