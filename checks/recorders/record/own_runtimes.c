// A program that opens libraries which bring a copy of gcc's runtime each, as Python's wheels do: built with LIBRARY, and
// without. Each thread of a region must count its own turns and tasks alone.
#ifdef LIBRARY
int count(int *turns) {
    int tasks = 0;
#pragma omp parallel num_threads(4)
    {
#pragma omp for schedule(static)
        for (int i = 0; i < 64; i++) turns[i]++;
#pragma omp single
        for (int i = 0; i < 8; i++)
#pragma omp task
        {
#pragma omp atomic
            tasks++;
        }
    }
    return tasks;
}
#else
#include <dlfcn.h>

static int is_wrong(const char *library) {
    int turns[64] = {0};
    void *opened = dlopen(library, RTLD_NOW | RTLD_LOCAL);
    int (*count)(int *) = opened ? (int (*)(int *))dlsym(opened, "count") : 0;
    if (!count || count(turns) != 8) return 1;
    for (int i = 0; i < 64; i++)
        if (turns[i] != 1) return 1;
    return 0;
}

int main(void) {
    for (int times = 0; times < 2; times++)
        if (is_wrong("./first.so") || is_wrong("./second.so")) return 1;
    return 0;
}
#endif
