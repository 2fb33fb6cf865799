// Transfers between accounts: one OpenMP lock guards all of them, and the interest is worked out inside it. The repair
// has a lock for each account; a transfer takes those of its two, the lower one first.
#include <cmath>
#include <cstdint>
#include <cstdio>
#include <omp.h>
#include <vector>

static const int accounts = 500, blocks = 80, transfers = 500;

struct Account {
    omp_lock_t lock;
    long cents = 1000000;
};

static long interest(long cents, int days) {
    double sum = cents;
    for (int day = 0; day < days; day++) sum += std::sqrt(sum + day) * 1e-4;
    return std::lround(sum - cents);
}

static void transfer(Account &from, Account &to, long cents) {
    from.cents -= cents + interest(cents, 200);
    to.cents += cents + interest(cents, 200);
}

static void block_of_transfers(int block, std::vector<Account> &book, omp_lock_t *whole) {
    uint32_t state = block * 2891336453u + 1;
    for (int i = 0; i < transfers; i++) {
        state = state * 1664525 + 1013904223;
        int from = (state >> 8) % accounts, to = (from + 1 + (state >> 20) % (accounts - 1)) % accounts;
#ifdef FIXED
        omp_lock_t *first = &book[from < to ? from : to].lock, *second = &book[from < to ? to : from].lock;
        omp_set_lock(first);
        omp_set_lock(second);
#else
        omp_set_lock(whole); // <- cause
#endif
        transfer(book[from], book[to], 1 + state % 900);
#ifdef FIXED
        omp_unset_lock(second);
        omp_unset_lock(first);
#else
        omp_unset_lock(whole); // <- cause
#endif
    }
}

int main() {
    std::vector<Account> book(accounts);
    omp_lock_t whole;
    omp_init_lock(&whole);
    for (auto &one : book) omp_init_lock(&one.lock);
#pragma omp parallel
#pragma omp single
    for (int block = 0; block < blocks; block++) {
#pragma omp task shared(book, whole)
        block_of_transfers(block, book, &whole);
    }
    unsigned long check = 0;
    for (int i = 0; i < accounts; i++) check = check * 31 + (unsigned long)book[i].cents;
    printf("%lu\n", check);
}
