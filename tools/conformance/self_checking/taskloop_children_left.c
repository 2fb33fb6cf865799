// Children that the iterations of an undeferred taskloop leave behind outlive the tasks that created them, with data of
// a length that the compiler does not know or without; the group's end waits for them.
// openmp: 12.6 taskloop construct, 3.4 if clause, 15.4 taskgroup construct
#include "expect.h"

enum { TURNS = 24 };

#ifdef __clang__  // which takes no such data
enum { length = 5 };
#else
static int length = 5;
#endif

static void with_data(long *ran) {
  int data[length];
  for (int i = 0; i < length; i++) data[i] = i;
#pragma omp taskloop if (0) num_tasks(6) nogroup firstprivate(data)
  for (int i = 0; i < TURNS; i++) {
    expect("what a turn finds in its data", data[length - 1], length - 1);
#pragma omp task shared(ran)
    count_late(ran);
  }
}

static void without_data(long *ran) {
#pragma omp taskloop if (0) num_tasks(6) nogroup
  for (int i = 0; i < TURNS; i++) {
#pragma omp task shared(ran)
    count_late(ran);
  }
}

int main(void) {
  for (int round = 0; round < 10; round++) {
    long ran = 0;
#pragma omp parallel
#pragma omp single
    {
#pragma omp taskgroup
      {
        with_data(&ran);
        without_data(&ran);
      }
      expect("children behind the group", now(&ran), 2 * TURNS);
    }
  }
  return wrong;
}
