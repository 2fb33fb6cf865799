// Orders in a list: one thread goes through it and makes a task for each, with a copy of the order whose prices are
// rounded. It cannot keep up with the others. The repair goes through eight lists in eight tasks.
#include <cmath>
#include <cstdint>
#include <cstdio>
#include <list>
#include <vector>

struct Order {
    int number, items;
    double prices[400];
};
typedef std::list<Order> Orders;

static const int orders = 16000, lists = 8;

static double total(const Order &one) {
    double sum = 0;
    for (int i = 0; i < one.items; i++) sum = (sum + one.prices[i] * (i % 10 == 9 ? 0.5 : 1)) / (1 + sum * 1e-6);
    return sum;
}

static Order rounded(const Order &each) {
    Order out = each;
    for (int i = 0; i < out.items; i++) out.prices[i] -= std::fmod(out.prices[i], 0.05);
    return out;
}

static void make_tasks(const Orders &list, std::vector<double> &totals) {
    for (const Order &each : list) {
        Order one = rounded(each);
#pragma omp task firstprivate(one) shared(totals) // <- cause
        totals[one.number] = total(one);
    }
}

int main() {
    std::vector<Orders> all(lists);
    for (int number = 0; number < orders; number++) {
        Order one = {number, 200 + number % 200, {}};
        for (int i = 0; i < one.items; i++) one.prices[i] = (number * 7 + i * 13) % 1000 * 0.01;
        all[number / (orders / lists)].push_back(one);
    }
    std::vector<double> totals(orders);
#pragma omp parallel
#pragma omp single
    for (const Orders &list : all) {
#ifdef FIXED
#pragma omp task shared(list, totals)
#endif
        make_tasks(list, totals); // <- cause
    }
    double sum = 0;
    for (double one : totals) sum += one;
    printf("%.2f\n", sum);
}
