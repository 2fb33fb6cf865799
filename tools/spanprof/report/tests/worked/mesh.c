void cell(int i) {
    if (i < 2) {
#pragma omp task
        step(i);
    }
#pragma omp parallel
    for (int i = 0; i < 2; i++) {
#pragma omp task \
        depend(inout: x)
#pragma omp task depend(in: x)

        cell(i);
#pragma omp task
        {
            finish();
#pragma omp taskwait
    }
}
