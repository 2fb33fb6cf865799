// The distances between the 60 stops of each of 300 towns: for each stop that a way may lead through, all rows of a
// town's table are looked at in a region of a few microseconds. The repair has one region for all towns.
#include <algorithm>
#include <cstdio>
#include <vector>

constexpr int towns = 300, stops = 60;
using Table = std::vector<int>;

static void by_way_of(Table &town, int via) {
#ifndef FIXED
#pragma omp parallel for // <- cause
#endif
    for (int from = 0; from < stops; from++) // <- cause
        for (int to = 0; to < stops; to++) {
            int &known = town[from * stops + to];
            known = std::min(known, town[from * stops + via] + town[via * stops + to]);
        }
}

int main() {
    std::vector<Table> all(towns, Table(stops * stops));
    for (int town = 0; town < towns; town++)
        for (int i = 0; i < stops * stops; i++)
            all[town][i] = i % (stops + 1) ? 1 + (i * 7919 + town * 104729) % 1000 : 0;
#ifdef FIXED
#pragma omp parallel for
#endif
    for (int town = 0; town < towns; town++)
        for (int via = 0; via < stops; via++) by_way_of(all[town], via);
    long sum = 0;
    for (const Table &town : all)
        for (int distance : town) sum += distance;
    std::printf("%ld\n", sum);
}
