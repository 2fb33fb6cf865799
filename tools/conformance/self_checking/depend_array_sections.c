// Sections of arrays are items: equal ones order their tasks, also through pointers and with lengths that are computed.
// openmp: 15.9.5 depend clause, 3.2.5 array sections
#include "expect.h"

static void blocks(long *field, int count_of, int size) {
  for (int i = 0; i < count_of; i++) {
#pragma omp task depend(out : field[i * size : size])
    {
      if (i % 2) linger();
      for (int k = 0; k < size; k++) field[i * size + k] = i;
    }
#pragma omp task depend(inout : field[i * size : size])
    for (int k = 0; k < size; k++) field[i * size + k] += 100;
  }
#pragma omp task depend(in : field[0 : size], field[(count_of - 1) * size : size])
  {
    expect("the first block", field[size - 1], 100);
    expect("the last block", field[count_of * size - 1], 99 + count_of);
  }
#pragma omp taskwait
}

int main(void) {
  for (int round = 0; round < 20; round++) {
    long field[60];
#pragma omp parallel
#pragma omp single
    {
      blocks(field, 6, 10);
      blocks(field, 20, 3);
    }
    for (int i = 0; i < 60; i++) expect("a number behind all", field[i], 100 + i / 3);
  }
  return wrong;
}
