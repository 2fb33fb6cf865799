// Iterators of a depend clause: two variables, steps, and a negative one.
// openmp: 3.2.6 iterators, 15.9.5 depend clause
#include "expect.h"

int main(void) {
  for (int round = 0; round < 20; round++) {
    int grid[4][4] = {{0}}, line[9] = {0};
#pragma omp parallel
#pragma omp single
    {
      for (int i = 0; i < 4; i++)
        for (int k = 0; k < 4; k++) {
#pragma omp task depend(out : grid[i][k])
          {
            if (i == k) linger();
            grid[i][k] = 1;
          }
        }
#pragma omp task depend(iterator(i = 0 : 4, k = 0 : 4), in : grid[i][k])
      {
        int sum = 0;
        for (int i = 0; i < 16; i++) sum += grid[i / 4][i % 4];
        expect("cells that are written before the reader", sum, 16);
      }
      for (int i = 0; i < 9; i += 2) {
#pragma omp task depend(out : line[i])
        {
          linger();
          line[i] = 1;
        }
      }
#pragma omp task depend(iterator(i = 8 : -1 : -2), in : line[i])
      expect("every other cell", line[0] + line[2] + line[4] + line[6] + line[8], 5);
    }
  }
  return wrong;
}
