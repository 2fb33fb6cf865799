/* Forces between stars, by a tree of squares: each quarter's tree is a task, and then the forces on all stars by a
 * taskloop. */
#include <math.h>
#include <stdio.h>
#include <stdlib.h>

enum { stars = 24000, deepest = 14, tasks_to = 4, grain = 200 };
typedef struct {
    double x, y, mass, ax, ay;
} Star;
typedef struct Square {
    struct Square *quarter[4];
    double x, y, mass, wide;
} Square;
static Star star[stars], room[stars];

static int quarter_of(const Star *s, double x, double y) {
    return (s->x >= x) + 2 * (s->y >= y);
}

static void sort(Star *s, Star *out, int many, double x, double y, int begin[5]) {
    int next[4], count[4] = {0};
    for (int i = 0; i < many; i++) count[quarter_of(s + i, x, y)]++;
    begin[0] = 0;
    for (int i = 0; i < 4; i++) next[i] = begin[i], begin[i + 1] = begin[i] + count[i];
    for (int i = 0; i < many; i++) out[next[quarter_of(s + i, x, y)]++] = s[i];
    for (int i = 0; i < many; i++) s[i] = out[i];
}

static void weigh(Square *q, const Star *s, int many) {
    for (int i = 0; i < many; i++) {
        q->mass += s[i].mass;
        q->x += s[i].x * s[i].mass;
        q->y += s[i].y * s[i].mass;
    }
    q->x /= q->mass;
    q->y /= q->mass;
}

static Square *plant(Star *s, Star *out, int many, double x, double y, double wide, int depth) {
    Square *q = calloc(1, sizeof *q);
    int begin[5];
    q->wide = wide;
    weigh(q, s, many);
    if (many == 1 || depth == deepest) return q;
    sort(s, out, many, x, y, begin);
    for (int i = 0; i < 4; i++) {
        if (begin[i] == begin[i + 1]) continue;
        double to = wide / 4;
#pragma omp task if (depth < tasks_to)
        q->quarter[i] = plant(s + begin[i], out + begin[i], begin[i + 1] - begin[i], x + (i % 2 ? to : -to),
                              y + (i / 2 ? to : -to), wide / 2, depth + 1);
    }
#pragma omp taskwait
    return q;
}

static void pull(Star *s, const Square *q) {
    double dx = q->x - s->x, dy = q->y - s->y, far = dx * dx + dy * dy + 1e-6;
    int is_leaf = 1;
    for (int i = 0; i < 4; i++) is_leaf &= !q->quarter[i];
    if (is_leaf || q->wide * q->wide < 0.25 * far) {
        double by = q->mass / (far * sqrt(far));
        s->ax += by * dx;
        s->ay += by * dy;
        return;
    }
    for (int i = 0; i < 4; i++)
        if (q->quarter[i]) pull(s, q->quarter[i]);
}

int main(void) {
    double sum = 0;
    srand(4);
    for (int i = 0; i < stars; i++) {
        double far = rand() / (double)RAND_MAX, turn = 6.2831853 * (rand() / (double)RAND_MAX);
        star[i] = (Star){far * far * cos(turn), far * far * sin(turn), 1.0 / stars, 0, 0};
    }
#pragma omp parallel
#pragma omp single
    {
        Square *top = plant(star, room, stars, 0, 0, 2, 0);
#pragma omp taskloop grainsize(grain)
        for (int i = 0; i < stars; i++) pull(star + i, top);
    }
    for (int i = 0; i < stars; i++) sum += fabs(star[i].ax);
    printf("%.6e\n", sum);
    return 0;
}
