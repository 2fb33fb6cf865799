// The recorder begins within a call of the program's, and keeps errno as it does later.
// runtime: gnu
// text: task \{
#include <errno.h>

#include "spend.h"

int main(void) {
    errno = EDOM;
#pragma omp parallel
#pragma omp single
#pragma omp task
    spend(1);
    return errno == EDOM ? 0 : 1;
}
