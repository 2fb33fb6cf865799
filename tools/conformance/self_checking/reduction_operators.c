// Task reductions by each operator of the language, from an initial value that counts too.
// openmp: 5.5.5 implicitly declared reduction identifiers, 5.5.9 task_reduction clause
#include "expect.h"

int main(void) {
  for (int round = 0; round < 20; round++) {
    long product = 3, most = -5, least = 5, bits = 255, either = 1, odd = 6;
    int all = 1, any = 0;
#pragma omp parallel
#pragma omp single
#pragma omp taskgroup task_reduction(* : product) task_reduction(max : most) task_reduction(min : least) \
    task_reduction(& : bits) task_reduction(| : either) task_reduction(^ : odd) task_reduction(&& : all) \
    task_reduction(|| : any)
    for (int i = 1; i <= 6; i++) {
#pragma omp task in_reduction(* : product) in_reduction(max : most) in_reduction(min : least) \
    in_reduction(& : bits) in_reduction(| : either) in_reduction(^ : odd) in_reduction(&& : all) in_reduction(|| : any)
      {
        product *= i;
        if (i > most) most = i;
        if (-i < least) least = -i;
        bits &= ~(1L << i);
        either |= 1L << i;
        odd ^= i;
        all = all && i < 6;
        any = any || i == 4;
      }
    }
    expect("the product", product, 2160);
    expect("the maximum", most, 6);
    expect("the minimum", least, -6);
    expect("the bits by &", bits, 129);
    expect("the bits by |", either, 127);
    expect("the bits by ^", odd, 6 ^ 1 ^ 2 ^ 3 ^ 4 ^ 5 ^ 6);
    expect("all by &&", all, 0);
    expect("any by ||", any, 1);
  }
  return wrong;
}
