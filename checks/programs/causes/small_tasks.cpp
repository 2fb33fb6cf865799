// Quicksort with a task for each part down to a dozen numbers: there are more tasks than code in them. The repair
// sorts parts below 10,000 numbers without tasks.
#include <algorithm>
#include <cstdint>
#include <cstdio>
#include <vector>

#ifdef FIXED
static const long least = 10000;
#else
static const long least = 12;
#endif

static int *divided(int *first, int *last) {
    int *middle = first + (last - first) / 2;
    int pivot = std::max(std::min(*first, *middle), std::min(std::max(*first, *middle), last[-1]));
    int *low = first, *high = last - 1;
    while (low <= high) {
        while (*low < pivot) low++;
        while (*high > pivot) high--;
        if (low <= high) std::swap(*low++, *high--);
    }
    return low;
}

static void sort(int *first, int *last) {
    if (last - first <= least) {
        std::sort(first, last);
        return;
    }
    int *middle = divided(first, last);
#pragma omp task // <- cause
    sort(first, middle);
#pragma omp task // <- cause
    sort(middle, last);
}

int main() {
    std::vector<int> numbers(700000);
    uint32_t state = 5;
    for (int &one : numbers) {
        state = state * 1664525 + 1013904223;
        one = state >> 2;
    }
#pragma omp parallel
#pragma omp single
    sort(numbers.data(), numbers.data() + numbers.size());
    long sum = 0;
    for (size_t i = 0; i < numbers.size(); i += 1000) sum += numbers[i];
    printf("%ld %d\n", sum, int(std::is_sorted(numbers.begin(), numbers.end())));
}
