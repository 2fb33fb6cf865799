// What a program of this folder saw and what is right, as a line for each difference; main returns `wrong`.
#include <omp.h>
#include <stdio.h>
#include <unistd.h>

static int wrong;

static inline void expect(const char *what, long seen, long right) {
  if (seen == right) return;
#pragma omp critical(expecting)
  {
    printf("%s: %ld was seen, %ld is right\n", what, seen, right);
    wrong = 1;
  }
}

static inline void expect_so(const char *what, int is_so) {
  if (is_so) return;
#pragma omp critical(expecting)
  {
    printf("%s: it was not so\n", what);
    wrong = 1;
  }
}

// So long that other threads get ahead where nothing holds them back.
static inline void linger(void) { usleep(200); }

// What several threads read and write.
static inline long now(const long *it) {
  long seen;
#pragma omp atomic read
  seen = *it;
  return seen;
}

static inline void set(long *it) {
#pragma omp atomic write
  *it = 1;
}

static inline void count(long *it) {
#pragma omp atomic
  ++*it;
}

static inline void count_late(long *it) {
  linger();
  count(it);
}

static inline void await(const long *it) {
  while (!now(it)) continue;
}
