// The functions of the program's tasks, each with a function of ours that stands before it: a template for each number.
#pragma once
#include <dlfcn.h>

#include <array>
#include <cstdlib>
#include <mutex>
#include <utility>

constexpr int MOST_ENTRIES = 400;

// The runtime's own function of that name.
template <typename Function>
Function real(const char *name, Function) {
    return reinterpret_cast<Function>(dlsym(RTLD_NEXT, name));
}
#define REAL(name) static const auto real_##name = real(#name, &name)

// Make<N>::before is the function that stands before entry N.
template <typename Function, template <int> class Make, int... N>
std::array<Function, sizeof...(N)> every_before(std::integer_sequence<int, N...>) {
    return {{Make<N>::before...}};
}

template <typename Entry>
class Entries {
public:
    // The number of an entry; a new one is added.
    int number(const Entry &entry) {
        std::lock_guard<std::mutex> it(lock);
        for (int i = 0; i < count; i++)
            if (entries[i] == entry) return i;
        if (count == MOST_ENTRIES) std::abort();
        entries[count] = entry;
        return count++;
    }
    const Entry &operator[](int number) const { return entries[number]; }
    int size() const { return count; }

private:
    std::mutex lock;
    std::array<Entry, MOST_ENTRIES> entries{};
    int count = 0;
};

// Where our own pointer stands behind what the program allocates.
inline std::size_t rounded(std::size_t size) { return (size + 15) & ~std::size_t(15); }
