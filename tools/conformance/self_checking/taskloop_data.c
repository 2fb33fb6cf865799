// Each task of a taskloop has its own private and firstprivate items, and a shared one that is the creator's; the last
// turn leaves lastprivate items, also where they are firstprivate too.
// openmp: 12.6 taskloop construct, 5.4.2 to 5.4.5 data-sharing clauses
#include "expect.h"

struct Wide { long numbers[20]; };

int main(void) {
  for (int round = 0; round < 20; round++) {
    struct Wide wide = {{0}};
    int first = 7, own = -1, last = 5, both = 9, begun = 0;
    long sum = 0, array[3] = {1, 2, 3};
    for (int k = 0; k < 20; k++) wide.numbers[k] = round + k;
#pragma omp parallel
#pragma omp single
    {
#pragma omp taskloop firstprivate(wide, first, array) private(own) lastprivate(last) firstprivate(both, begun) \
    lastprivate(both) shared(sum) num_tasks(6)
      for (int i = 0; i < 30; i++) {
        for (int k = 0; k < 20; k++) expect("a number of a wide firstprivate item", wide.numbers[k], round + k);
        expect("a firstprivate array", array[0] + array[1] + array[2], 6);
        if (!begun) {
          expect("a firstprivate item as a task begins", first, 7);
          expect("one that is lastprivate too", both, 9);
        }
        if (i % 7 == 0) linger();
        begun = 1;
        own = first = both = last = i;
        expect("a private item", own, i);
#pragma omp atomic
        sum += i;
      }
      expect("the creator's firstprivate item", first, 7);
      expect("a lastprivate item", last, 29);
      expect("an item that is firstprivate and lastprivate", both, 29);
    }
    expect("a shared item", sum, 435);
    expect("the creator's private item", own, -1);
  }
  return wrong;
}
