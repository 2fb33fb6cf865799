// A collapsed taskloop has each pair of turns once; its last turn leaves lastprivate items, its first firstprivate ones.
// openmp: 12.6 taskloop construct, 4.4.3 collapse clause, 5.4.5 lastprivate clause
#include "expect.h"

static long seen[7][11];

int main(void) {
  for (int round = 1; round <= 20; round++) {
    int last = -1, first = 40;
    long out_of_range = 0;
#pragma omp parallel
#pragma omp single
#pragma omp taskloop collapse(2) grainsize(5) lastprivate(last) firstprivate(first)
    for (int i = 0; i < 7; i++)
      for (int k = 10; k >= 0; k--) {
        if (i < 0 || i > 6 || k < 0 || k > 10) {
          count(&out_of_range);
          continue;
        }
        count(&seen[i][k]);
        last = 100 * i + k;
        if (first != 40) expect("a firstprivate item", first, 40);
      }
    for (int i = 0; i < 7; i++)
      for (int k = 0; k < 11; k++) expect("runs of a pair of turns", seen[i][k], round);
    expect("turns out of range", out_of_range, 0);
    expect("the lastprivate item", last, 600);
  }
  return wrong;
}
