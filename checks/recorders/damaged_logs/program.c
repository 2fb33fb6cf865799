// A little of all that the recorder tells of, so that its log has records of every kind. With an argument a thread of
// the program's own meets regions late, too.
#include <omp.h>
#include <pthread.h>
#include <stdio.h>

static volatile int done;
static int cells[8];
static omp_lock_t lock;

static void code(int turns) {
    for (int i = 0; i < turns; i++) done = done * 5 + 1;
}

static void tree(int depth) {
    code(100);
    if (!depth) return;
    for (int i = 0; i < 2; i++) {
#pragma omp task untied
        tree(depth - 1);
    }
#pragma omp taskwait
}

static void tasks(void) {
    for (int i = 0; i < 8; i++) {
#pragma omp task depend(in: cells[i]) depend(inout: cells[(i + 1) % 8])
        code(200);
    }
#pragma omp task if(0) depend(inout: cells[0])
    code(100);
#pragma omp taskwait depend(in: cells[1], cells[2])
#pragma omp taskgroup
    tree(3);
#pragma omp taskloop grainsize(4)
    for (int i = 0; i < 40; i++) code(50);
#pragma omp taskgroup
    {
#pragma omp task final(1)
        tree(1);
#pragma omp task
        {
#pragma omp cancel taskgroup
        }
    }
}

static void loops(void) {
#pragma omp for schedule(dynamic, 2)
    for (int i = 0; i < 16; i++) code(100);
#pragma omp for ordered(1) schedule(static, 1)
    for (int i = 0; i < 8; i++) {
#pragma omp ordered depend(sink: i - 1)
        code(50);
#pragma omp ordered depend(source)
    }
#pragma omp sections
    {
        code(300);
#pragma omp section
        code(100);
    }
}

static void inside(void) {
#pragma omp parallel num_threads(2)
    {
#pragma omp task
        code(100);
    }
}

static void regions(int count) {
    for (int step = 0; step < count; step++) {
#pragma omp parallel
        {
#pragma omp single
            tasks();
            loops();
#pragma omp task
            inside();
            omp_set_lock(&lock);
            code(50);
            omp_unset_lock(&lock);
#pragma omp critical
            code(50);
        }
    }
}

static void *late(void *count) {
    regions(*(int *)count);
    return NULL;
}

int main(int words, char **word) {
    (void)word;
    int count = 2;
    omp_init_lock(&lock);
    regions(count);
    if (words > 1) {
        pthread_t thread;
        pthread_create(&thread, NULL, late, &count);
        regions(count);
        pthread_join(thread, NULL);
        regions(count);
    }
    printf("%d\n", done);
    return 0;
}
