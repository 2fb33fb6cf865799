// A group with many items, of several sizes and types: none of them touches another.
// openmp: 5.5.9 task_reduction clause, 5.5.10 in_reduction clause
#include "expect.h"

int main(void) {
  for (int round = 0; round < 20; round++) {
    char a = 1;
    short b = 2;
    int c = 3, counts[5] = {0};
    long d = 4;
    float e = 5;
    double f = 6, table[2][3] = {{0}};
    unsigned long long g = 7;
#pragma omp parallel
#pragma omp single
#pragma omp taskgroup task_reduction(+ : a, b, c, d, e, f, g) task_reduction(+ : counts, table)
    for (int i = 0; i < 30; i++) {
#pragma omp task in_reduction(+ : g, f, e, d) in_reduction(+ : table)
      {
        d += i, e += 1, f += 0.5, g += 1ull << 40;
        table[i % 2][i % 3] += 1;
      }
#pragma omp task in_reduction(+ : a, b, c, counts)
      {
        a += 1, b += 100, c += 10000;
        counts[i % 5] += i;
      }
    }
    expect("a char", a, 31);
    expect("a short", b, 3002);
    expect("an int", c, 300003);
    expect("a long", d, 439);
    expect("a float", (long)e, 35);
    expect("a double", (long)f, 21);
    expect("an unsigned long long", (long)(g >> 40), 30);
    for (int k = 0; k < 5; k++) expect("an int of an array", counts[k], 75 + 6 * k);
    for (int k = 0; k < 6; k++) expect("a double of a table", (long)table[k / 3][k % 3], 5);
  }
  return wrong;
}
