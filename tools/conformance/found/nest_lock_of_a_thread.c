/* libomp: a nestable lock that one task has set is set again by another task on the same thread

   Build and run: `clang -O1 -fopenmp nest_lock_of_a_thread.c && ./a.out`.

   Expected (OpenMP API 5.2, 18.9): a lock belongs to the task that sets it, and only that task may set a nestable
   lock again. `omp_test_nest_lock` gives 0 in another task. The program prints `0`.

   Seen: `2`: the undeferred task counts as the one that has the lock.

   By its calls libomp keeps the number of the thread (gtid) as the owner of a nestable lock, and no task.

   At stake: a promise of the standard.

   Versions (packages of Debian 12, x86-64): libomp 19.1.7: 2 in 10 of 10 runs. Libgomp 12.2.0: 0 in 10 of 10. Trunk
   was not tried. */
#include <omp.h>
#include <stdio.h>

int main(void) {
    int count = -1;
    omp_nest_lock_t lock;
    omp_init_nest_lock(&lock);
#pragma omp parallel
#pragma omp single
    {
        omp_set_nest_lock(&lock);
#pragma omp task if(0) shared(count)
        count = omp_test_nest_lock(&lock);
        if (count) omp_unset_nest_lock(&lock);
        omp_unset_nest_lock(&lock);
    }
    printf("%d\n", count);
    return count != 0;
}
