/* Tasks of two kinds, and code after them; rewritten, the second kind takes half as long. */
#include "spin.h"

#ifdef REWRITTEN
enum { length = 4000 };
#else
enum { length = 8000 };
#endif

int main(void) {
#pragma omp parallel
#pragma omp single
    {
        for (int i = 0; i < 10; i++) {
#pragma omp task
            spin(3000);
#pragma omp task
            spin(length);
        }
#pragma omp taskwait
        spin(4000);
    }
    return 0;
}
