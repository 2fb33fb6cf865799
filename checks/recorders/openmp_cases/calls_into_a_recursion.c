// A function that recurses by tasks, most of them undeferred, is called at two lines: all its tasks have the line that
// led into the recursion (clang 16 has no function there), and none has one inside it. What is called once has none.
// env: SPANPROF_CALL_PATHS=1
// text: task \{  # calls_into_a_recursion.c:18 called from (main at )?calls_into_a_recursion.c:40\n
// text: task if\(0\) \{  # calls_into_a_recursion.c:18 called from (main at )?calls_into_a_recursion.c:40\n
// text: task \{  # calls_into_a_recursion.c:20 called from (main at )?calls_into_a_recursion.c:41\n
// text: task if\(0\) \{  # calls_into_a_recursion.c:20 called from (main at )?calls_into_a_recursion.c:41\n
// text: task \{  # calls_into_a_recursion.c:29\n
// text: task if\(0\) \{  # calls_into_a_recursion.c:29\n
// no text: called from fib
// no text: task.*\{  # calls_into_a_recursion.c:(18|20)\n
// expect: tasks = 770
#include <stdio.h>

static int __attribute__((noinline)) fib(int n) {
    int a, b;
    if (n < 2) return n;
#pragma omp task shared(a) if(n > 8)
    a = fib(n - 1);
#pragma omp task shared(b) if(n > 8)
    b = fib(n - 2);
#pragma omp taskwait
    return a + b;
}

static int __attribute__((noinline)) chain(int n) {
    int a;
    if (!n) return 0;
#pragma omp task shared(a) if(n > 8)
    a = chain(n - 1);
#pragma omp taskwait
    return a + 1;
}

int main(void) {
    int all = 0;
#pragma omp parallel
#pragma omp single
    {
        all += fib(12);
        all += fib(11);
        all += chain(20);
    }
    printf("%d\n", all);
    return 0;
}
