// Records of 32 bytes of a file are read one by one, each with a call of the kernel, in tasks for parts of the file.
// The repair reads 64 kB at a time.
#include <fcntl.h>
#include <stdio.h>
#include <stdlib.h>
#include <unistd.h>

enum { parts = 16, of_a_part = 30000, size = 32, buffered = 2048 };

static long sum_of(const unsigned char *record) {
    long sum = 0;
    for (int i = 0; i < size; i++) sum += record[i] * (i + 1);
    return sum;
}

static long part(int file, long first) {
    long sum = 0;
#ifdef FIXED
    unsigned char *records = malloc(buffered * size);
    for (long i = first; i < first + of_a_part; i += buffered) {
        long left = first + of_a_part - i, count = left < buffered ? left : buffered;
        if (pread(file, records, count * size, i * size) != count * size) abort();
        for (long k = 0; k < count; k++) sum += sum_of(records + k * size);
    }
    free(records);
#else
    unsigned char record[size];
    for (long i = first; i < first + of_a_part; i++) { // <- cause
        if (pread(file, record, size, i * size) != size) abort(); // <- cause
        sum += sum_of(record); // <- cause
    }
#endif
    return sum;
}

int main(void) {
    char name[] = "/tmp/recordsXXXXXX";
    int file = mkstemp(name);
    unlink(name);
    unsigned char *all = malloc(of_a_part * size);
    for (int i = 0; i < of_a_part * size; i++) all[i] = i * 7 % 251;
    for (int i = 0; i < parts; i++)
        if (write(file, all, of_a_part * size) != of_a_part * size) abort();
    long sums[parts], sum = 0;
#pragma omp parallel
#pragma omp single
    for (int i = 0; i < parts; i++) {
#pragma omp task shared(sums) // <- cause
        sums[i] = part(file, (long)i * of_a_part); // <- cause
    }
    for (int i = 0; i < parts; i++) sum += sums[i];
    printf("%ld\n", sum);
    free(all);
    close(file);
}
