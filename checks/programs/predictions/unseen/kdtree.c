/* Builds a k-d tree: parts points at the median of their widest side, and both halves are tasks, down to depth 9, that
 * nobody waits for; rewritten, down to depth 4. */
#include <stdio.h>
#include <stdlib.h>

enum { points = 300000, sides = 3, few = 16 };
#ifdef REWRITTEN
enum { deepest = 4 };
#else
enum { deepest = 9 };
#endif
typedef struct {
    float at[sides];
} Point;
static Point point[points];
static unsigned char side_of[points];   /* of the point in the middle of each range */

static int widest(const Point *p, long many) {
    float least[sides], most[sides];
    for (int s = 0; s < sides; s++) least[s] = most[s] = p[0].at[s];
    for (long i = 1; i < many; i++)
        for (int s = 0; s < sides; s++) {
            least[s] = p[i].at[s] < least[s] ? p[i].at[s] : least[s];
            most[s] = p[i].at[s] > most[s] ? p[i].at[s] : most[s];
        }
    int found = 0;
    for (int s = 1; s < sides; s++)
        if (most[s] - least[s] > most[found] - least[found]) found = s;
    return found;
}

static void part(Point *p, long many, long middle, int s) {
    long low = 0, high = many - 1;
    while (low < high) {
        float pivot = p[(low + high) / 2].at[s];
        long i = low, j = high;
        while (i <= j) {
            while (p[i].at[s] < pivot) i++;
            while (p[j].at[s] > pivot) j--;
            if (i > j) break;
            Point kept = p[i];
            p[i++] = p[j];
            p[j--] = kept;
        }
        if (middle <= j) high = j;
        else if (middle >= i) low = i;
        else return;
    }
}

static void build(Point *p, long many, int depth) {
    if (many <= few) return;
    long middle = many / 2;
    int s = widest(p, many);
    part(p, many, middle, s);
    side_of[p + middle - point] = s;
    if (depth == deepest) {
        build(p, middle, depth);
        build(p + middle + 1, many - middle - 1, depth);
        return;
    }
#pragma omp task
    build(p, middle, depth + 1);
#pragma omp task
    build(p + middle + 1, many - middle - 1, depth + 1);
}

int main(void) {
    srand(8);
    for (int i = 0; i < points; i++)
        for (int s = 0; s < sides; s++) point[i].at[s] = (rand() % 10000) * (rand() % 100) / (1.0f + s);
#pragma omp parallel
#pragma omp single
    build(point, points, 0);
    long sum = 0;
    for (int i = 0; i < points; i++) sum += side_of[i];
    printf("%ld %.2f\n", sum, point[points / 2].at[0]);
    return 0;
}
