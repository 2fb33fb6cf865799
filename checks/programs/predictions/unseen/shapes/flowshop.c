/* The shortest schedule of jobs that all go through the same machines, by branch and bound: tasks down to the fourth
 * job of an order; for each first job they have the best schedule so far as a bound, and add theirs in a critical
 * section; rewritten, tasks down to the third job. */
#include <stdio.h>

enum { jobs = 12, machines = 5 };
#ifdef REWRITTEN
enum { deepest = 2 };
#else
enum { deepest = 3 };
#endif
typedef struct {
    int end[machines];
    unsigned done;
} Order;
static int length[jobs][machines], tail[jobs][machines], best;

static int greater(int a, int b) {
    return a > b ? a : b;
}

static Order with(Order order, int job) {
    int end = 0;
    for (int m = 0; m < machines; m++) order.end[m] = end = greater(end, order.end[m]) + length[job][m];
    order.done |= 1u << job;
    return order;
}

static int is_done(const Order *order, int job) {
    return order->done >> job & 1;
}

/* No schedule that begins with this order ends sooner. */
static int bound(const Order *order) {
    int most = 0;
    for (int m = 0; m < machines; m++) {
        int sum = order->end[m], least = 1 << 20;
        for (int job = 0; job < jobs; job++) {
            if (is_done(order, job)) continue;
            sum += length[job][m];
            least = tail[job][m] < least ? tail[job][m] : least;
        }
        most = greater(most, least < 1 << 20 ? sum + least : sum);
    }
    return most;
}

static int lesser(int a, int b) {
    return a < b ? a : b;
}

static int search(Order order, int known) {
    if (order.done == (1u << jobs) - 1) return order.end[machines - 1];
    int least = known;
    for (int job = 0; job < jobs; job++) {
        Order next = with(order, job);
        if (!is_done(&order, job) && bound(&next) < known) least = lesser(least, search(next, known));
    }
    return least;
}

static void keep(int found) {
#pragma omp critical
    best = lesser(best, found);
}

static void branch(Order order, int known, int depth) {
    if (depth == deepest) {
        keep(search(order, known));
        return;
    }
    for (int job = 0; job < jobs; job++) {
        Order next = with(order, job);
        if (is_done(&order, job) || bound(&next) >= known) continue;
#pragma omp task
        branch(next, known, depth + 1);
    }
}

static void make_jobs(void) {
    unsigned x = 17;
    for (int job = 0; job < jobs; job++) {
        for (int m = 0; m < machines; m++) {
            x = x * 1664525u + 1013904223u;
            length[job][m] = 1 + (x >> 8) % 99;
        }
        for (int m = machines - 2; m >= 0; m--) tail[job][m] = tail[job][m + 1] + length[job][m + 1];
    }
}

static int time_of(const int *order, int many) {
    Order made = {{0}, 0};
    for (int i = 0; i < many; i++) made = with(made, order[i]);
    return made.end[machines - 1];
}

/* Puts each job where that takes least (Nawaz, Enscore and Ham), in the order of their numbers. */
static int good_schedule(void) {
    int order[jobs];
    for (int job = 0; job < jobs; job++) {
        int least = 1 << 20, place = job;
        order[job] = job;
        for (int i = job; i >= 0; i--) {
            int taken = time_of(order, job + 1);
            if (taken < least) least = taken, place = i;
            if (i) order[i] = order[i - 1], order[i - 1] = job;
        }
        for (int i = 0; i < place; i++) order[i] = order[i + 1];
        order[place] = job;
    }
    return time_of(order, jobs);
}

int main(void) {
    make_jobs();
    best = good_schedule();
#pragma omp parallel
#pragma omp single
    for (int first = 0; first < jobs; first++) {
#pragma omp taskgroup
        branch(with((Order){{0}, 0}, first), best, 0);
    }
    printf("%d\n", best);
    return 0;
}
