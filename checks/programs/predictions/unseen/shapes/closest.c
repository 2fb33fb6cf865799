/* The least distance of two points: tasks for both halves by their x, down to 64 points, undeferred by an `if` clause
 * where there are less than 4,096, and the points are merged by their y; rewritten, tasks down to depth 7. */
#include <math.h>
#include <stdio.h>
#include <stdlib.h>
#include <string.h>

enum { points = 1 << 19, few = 64, many = 4096, deepest = 7 };
typedef struct {
    double x, y;
} Point;
static Point point[points], spare[points];

static int by_x(const void *a, const void *b) {
    double x = ((const Point *)a)->x, y = ((const Point *)b)->x;
    return (x > y) - (x < y);
}

static double lesser(double a, double b) {
    return a < b ? a : b;
}

static double squared(Point a, Point b) {
    return (a.x - b.x) * (a.x - b.x) + (a.y - b.y) * (a.y - b.y);
}

static double of_few(Point *p, long n) {
    double least = 1e9;
    for (long i = 1; i < n; i++) {
        Point one = p[i];
        long to = i;
        for (long j = 0; j < i; j++) least = lesser(least, squared(one, p[j]));
        for (; to > 0 && p[to - 1].y > one.y; to--) p[to] = p[to - 1];
        p[to] = one;
    }
    return least;
}

static void merge(Point *p, Point *into, long half, long n) {
    long left = 0, right = half;
    for (long i = 0; i < n; i++)
        into[i] = right == n || (left < half && p[left].y <= p[right].y) ? p[left++] : p[right++];
    memcpy(p, into, n * sizeof(Point));
}

/* Of points that are near the line between both halves; `strip` has room for them. */
static double across(const Point *p, Point *strip, long n, double line, double least) {
    long near = 0;
    for (long i = 0; i < n; i++) {
        if ((p[i].x - line) * (p[i].x - line) >= least) continue;
        for (long j = near - 1; j >= 0 && (p[i].y - strip[j].y) * (p[i].y - strip[j].y) < least; j--)
            least = lesser(least, squared(p[i], strip[j]));
        strip[near++] = p[i];
    }
    return least;
}

static double closest(Point *p, Point *room, long n, int depth) {
    if (n <= few) return of_few(p, n);
    long half = n / 2;
    double line = p[half].x, left = 0, right = 0;
#ifdef REWRITTEN
    if (depth == deepest) {
        left = closest(p, room, half, depth);
        right = closest(p + half, room + half, n - half, depth);
    } else
#endif
    {
#pragma omp task shared(left) if (n >= many)
        left = closest(p, room, half, depth + 1);
#pragma omp task shared(right) if (n >= many)
        right = closest(p + half, room + half, n - half, depth + 1);
#pragma omp taskwait
    }
    merge(p, room, half, n);
    return across(p, room, n, line, lesser(left, right));
}

int main(void) {
    unsigned long x = 3;
    for (int i = 0; i < points; i++) {
        x = x * 6364136223846793005ul + 1442695040888963407ul;
        point[i].x = (x >> 33) * 0x1p-31;
        x = x * 6364136223846793005ul + 1442695040888963407ul;
        point[i].y = (x >> 33) * 0x1p-31;
    }
    qsort(point, points, sizeof(Point), by_x);
    double least = 0;
#pragma omp parallel
#pragma omp single
    least = closest(point, spare, points, 0);
    printf("%.12f\n", sqrt(least));
    return 0;
}
