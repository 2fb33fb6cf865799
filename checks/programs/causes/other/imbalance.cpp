// Checks of files, each in a task: one of forty is as long as all others together. The repair checks long ones in
// pieces of 64 kB, and joins the sums of the pieces.
#include <cstdint>
#include <cstdio>
#include <vector>

static const size_t piece = 65536;
typedef std::vector<unsigned char> File;

static uint64_t check(const File &file, size_t first, size_t last) {
    uint64_t sum = 1469598103934665603u;
    for (size_t i = first; i < last; i++)
        for (int round = 0; round < 5; round++) sum = (sum ^ (file[i] + round)) * 1099511628211u;
    return sum;
}

static void check_file(const File &file, std::vector<uint64_t> &sums) {
    for (size_t k = 0; k < sums.size(); k++) {
        size_t first = k * piece, last = first + piece < file.size() ? first + piece : file.size();
#ifdef FIXED
#pragma omp task shared(file, sums) firstprivate(k, first, last)
#endif
        sums[k] = check(file, first, last);
    }
#ifdef FIXED
#pragma omp taskwait
#endif
}

int main() {
    std::vector<File> files;
    std::vector<std::vector<uint64_t>> sums;
    for (int i = 0; i < 40; i++) {
        size_t size = i == 9 ? 9000000 : 150000 + i * 4000;
        files.emplace_back(size);
        for (size_t k = 0; k < size; k++) files[i][k] = (k * 31 + i) >> 3;
        sums.emplace_back((size + piece - 1) / piece);
    }
#pragma omp parallel
#pragma omp single
    for (size_t i = 0; i < files.size(); i++) {
#pragma omp task shared(files, sums) // <- cause
        check_file(files[i], sums[i]); // <- cause
    }
    uint64_t sum = 0;
    for (const auto &one : sums)
        for (uint64_t number : one) sum = sum * 3 + number;
    printf("%llu\n", (unsigned long long)sum);
}
