/* libomp: crash where threads of the program each run a region with tasks and end

   Build and run: `clang -O1 -fopenmp -pthread short_lived_threads.c && ./a.out`.

   Expected (OpenMP API 5.2, 10.1): any thread may meet a `parallel` construct. LLVM's runtime makes a root for each
   thread of the program (`__kmp_register_root`), and unmakes it where the thread ends (`__kmp_internal_end_dest`).
   The program prints `300 threads have ended`.

   Seen: SIGSEGV, SIGBUS, or `Assertion failure at kmp_alloc.cpp(2236)`, on 19 after 35 to 97 threads. Valgrind
   reports a read of memory that was freed where an earlier thread of the program ended.

   `___kmp_fast_free` in `kmp_alloc.cpp` puts what another thread has allocated into a list of the freeing thread
   (`th_free_list_other`). The team's second thread stays in the pool with that list when the thread of the program
   ends, and `__kmp_reap_thread` frees the memory of that one, with its `kmp_info_t`. The next free of the pool's
   thread follows the list there.

   At stake: a promise of the standard.

   Versions (packages of Debian 12, x86-64): 5 of 5 starts with libomp 14.0.6 (line 2169), 16.0.6 (line 2230) and
   19.1.7 on four busy processors, none of 5 with libgomp 12.2.0. With one thread in a region, or without tasks, 2,000
   threads ended on 19 in each of three starts. Trunk was not tried. */
#include <pthread.h>
#include <stdio.h>

static void *region(void *unused) {
#pragma omp parallel num_threads(2)
#pragma omp single
    for (int i = 0; i < 10; i++) {
#pragma omp task
        {
        }
    }
    return unused;
}

int main(void) {
    for (int run = 0; run < 300; run++) {
        pthread_t thread;
        if (pthread_create(&thread, NULL, region, NULL)) return 2;
        pthread_join(thread, NULL);
    }
    puts("300 threads have ended");
    return 0;
}
