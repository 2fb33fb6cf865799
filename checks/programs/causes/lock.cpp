// How often each word occurs in pages: each task puts every word into one table, inside one critical construct. The
// repair counts the words of a page in a table of its own, which it adds to the other once.
#include <cstdint>
#include <cstdio>
#include <string>
#include <unordered_map>

static const int pages = 64, words = 4000;
typedef std::unordered_map<std::string, int> Counts;

static std::string word(uint32_t &state) {
    state = state * 1664525 + 1013904223;
    uint32_t kind = (state >> 8) % 3000;
    std::string out;
    for (uint32_t rest = kind * 2654435761u; out.size() < 5 + kind % 7; rest = rest / 7 + rest * 31)
        out += char('a' + (rest >> 5) % 26);
    return out;
}

static void count_page(int page, Counts &counts) {
    uint32_t state = page + 1;
#ifdef FIXED
    Counts own;
    for (int i = 0; i < words; i++) own[word(state)]++;
#pragma omp critical(table)
    for (const auto &one : own) counts[one.first] += one.second;
#else
    for (int i = 0; i < words; i++) {
        std::string found = word(state);
#pragma omp critical(table) // <- cause
        counts[found]++; // <- cause
    }
#endif
}

int main() {
    Counts counts;
#pragma omp parallel
#pragma omp single
    for (int page = 0; page < pages; page++) {
#pragma omp task shared(counts)
        count_page(page, counts);
    }
    long sum = 0;
    for (const auto &one : counts) sum += long(one.second) * one.second * one.first.size();
    printf("%zu %ld\n", counts.size(), sum);
}
