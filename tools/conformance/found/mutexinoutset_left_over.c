/* libomp: tasks with `mutexinoutset` overlap or are left over where the task that created them has ended

   Build and run: `clang -O1 -fopenmp mutexinoutset_left_over.c && ./a.out`.

   Expected (OpenMP API 5.2, 15.3.2 and 15.9.5): of two siblings with `mutexinoutset` items on a location one runs
   after the other, and all tasks of a region are complete when it ends. The program prints `at once 0 times, left
   over 0 times of 20`.

   Seen: `at once 15 times, left over 5 times of 20`.

   The lock of such tasks lies in their parent's table of locations. When the parent's code ends, `__kmp_release_deps`
   in `kmp_taskdeps.h` frees the table and destroys the lock (`__kmp_dephash_free_entries`), which its children hold
   and will ask for in freed memory. Mostly it looks free. Where its two numbers differ nobody gets it any more:
   `__kmp_task_is_allowed` refuses the task, and the region ends without it. A task left over may run in a later
   region, or twice; where a group waits for it, the program hangs.

   At stake: a promise of the standard.

   Versions (packages of Debian 12, x86-64): of 20 regions at once and left over, in five starts: libomp 14.0.6 11-19
   and 1-7, 16.0.6 13-19 and 0-4, 19.1.7 15-20 and 0-5, libgomp 12.2.0 none. With a `taskwait` at the end of the
   parent none in five starts on 16 and 19. Trunk was not tried. */
#include <stdatomic.h>
#include <stdio.h>
#include <unistd.h>

static atomic_int begun, runs, ended;

int main(void) {
    char x;
    int at_once = 0, left = 0;
    for (int run = 0; run < 20; run++) {
        begun = runs = ended = 0;
#pragma omp parallel num_threads(4) shared(at_once)
#pragma omp master
#pragma omp task shared(at_once)
        {
#pragma omp task depend(mutexinoutset : x)
            {
                begun = runs = 1;
                usleep(20000);
                runs = 0;
                ended++;
            }
            for (int i = 0; i < 10000 && !begun; i++) usleep(100);
#pragma omp task depend(mutexinoutset : x) shared(at_once)
            {
                at_once += runs;
                ended++;
            }
        }
        left += ended < 2;
    }
    printf("at once %d times, left over %d times of 20\n", at_once, left);
    return at_once || left;
}
