// Each process of MPI's runs tasks of its own, the later the more. With a word the others then wait for rank 1.
#include <mpi.h>
#include <time.h>
#include <unistd.h>

int main(int count, char **words) {
    int rank;
    MPI_Init(&count, &words);
    MPI_Comm_rank(MPI_COMM_WORLD, &rank);
#pragma omp parallel num_threads(2)
#pragma omp single
    for (int i = 0; i < 4 * (rank + 1); i++) {
#pragma omp task
        usleep(2000);
    }
    while (count > 1 && rank == 1 && clock() < CLOCKS_PER_SEC) {
    }
    MPI_Barrier(MPI_COMM_WORLD);
    MPI_Finalize();
    return 0;
}
