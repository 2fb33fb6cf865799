// gcc's runtime runs a `target` on the host: code of the thread, or by `nowait` a task; what is copied only waits.
// runtime: gnu
// text: task depend\(inout: a1\) depend\(in: a0\) {  # target_on_the_host.c:25
// text: task if\(0\) depend\(inout: a1\) {  # target_on_the_host.c:27
// text: task depend\(inout: a1\) {  # target_on_the_host.c:28
// text: task if\(0\) depend\(inout: a1\) {  # target_on_the_host.c:29
// text: task if\(0\) {  # target_on_the_host.c:3[23]
// text: taskwait  # target_on_the_host.c:35
#include <stdio.h>
#include <stdlib.h>

static void check(int is_right) {
    if (!is_right) abort();
}

int main(void) {
    int a = 0, b = 0, f = 7;
#pragma omp parallel num_threads(4)
#pragma omp single
    {
        puts("a region");

#pragma omp task depend(out: a) shared(a)
        a = 1;
#pragma omp target nowait depend(in: a) depend(out: b) map(to: a) map(tofrom: b) firstprivate(f)
        b = a + f;
#pragma omp target update to(a) depend(inout: b)
#pragma omp target enter data map(to: a) depend(inout: b) nowait
#pragma omp target depend(inout: b) map(tofrom: b)
        {
            b++;
#pragma omp task shared(b)
            b++;
        }
#pragma omp taskwait
    }
    check(b == 10);
    return 0;
}
