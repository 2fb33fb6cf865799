// Words are looked for in a table of 4,096 places, two at a time by each thread: a look takes less than to take the
// next two. The repair takes 4,096 words at a time.
#include <cstdio>
#include <vector>

#ifdef FIXED
constexpr int together = 4096;
#else
constexpr int together = 2;
#endif

int main() {
    const int words = 6000000;
    std::vector<unsigned> table(4096), places(words);
    for (unsigned i = 0; i < table.size(); i++) table[i] = i * 2654435761u;
    long found = 0;
#pragma omp parallel for schedule(dynamic, together) reduction(+ : found) // <- cause
    for (int word = 0; word < words; word++) { // <- cause
        places[word] = table[word * 40503u >> 4 & 4095];
        found += places[word] & 1;
    }
    std::printf("%ld\n", found);
}
