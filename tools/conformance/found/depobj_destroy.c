/* clang: `destroy` of a depend object is refused in both forms under `-fopenmp-version=52`

   Build and run: `clang -fopenmp -fopenmp-version=52 depobj_destroy.c && ./a.out`.

   Expected (OpenMP API 5.2, 3.5 and 15.9.4): `destroy(object)` ends the life of the object that the directive names.
   Without its argument the clause is deprecated, and means the same. The program prints `1`.

   Seen: `error: expected 'destroy' clause with an argument on '#pragma omp depobj' construct`, and with the argument
   also `warning: extra tokens at the end of '#pragma omp depobj' are ignored`. It looks as if the parser takes the
   clause without its argument, and a later test misses it.

   At stake: what the compiler knows of the standard.

   Versions (packages of Debian 12, x86-64): clang 19.1.7 refuses both forms with `-fopenmp-version=52` and `=60`;
   with 50 and 51 `destroy(object)` gets the warning, and both print 1. Clang 14.0.6 and 16.0.6 build both with 52,
   and warn of the argument. Gcc 12.2.0 knows OpenMP 5.0: `destroy` prints 1, `destroy(object)` is an error. Trunk was
   not tried. */
#include <omp.h>
#include <stdio.h>

int main(void) {
    int done = 0;
    omp_depend_t object;
#pragma omp depobj(object) depend(inout: done)
#pragma omp parallel
#pragma omp single
    {
#pragma omp task depend(depobj: object) shared(done)
        done = 1;
    }
#pragma omp depobj(object) destroy(object)
    printf("%d\n", done); /* 1 */
    return done != 1;
}
