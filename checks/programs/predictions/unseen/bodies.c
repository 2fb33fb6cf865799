/* Steps of bodies that attract each other, by a quadtree (Barnes and Hut) that one thread builds, and a task for each
 * part of the bodies; rewritten, four times as many tasks. */
#include <math.h>
#include <stdio.h>
#include <stdlib.h>

enum { bodies = 9600, most = 4 * bodies, steps = 3 };
#ifdef REWRITTEN
enum { parts = 24 };
#else
enum { parts = 6 };
#endif
typedef struct {
    double x, y, size, mass, sum_x, sum_y;
    int child[4], body;
} Cell;
static Cell cell[most];
static int cells;
static double x[bodies], y[bodies], fast_x[bodies], fast_y[bodies];

static int new_cell(double at_x, double at_y, double size) {
    cell[cells] = (Cell){at_x, at_y, size, 0, 0, 0, {-1, -1, -1, -1}, -1};
    return cells++;
}

static int child_of(int at, int body) {
    Cell *c = &cell[at];
    int right = x[body] > c->x, up = y[body] > c->y, which = 2 * up + right;
    if (c->child[which] < 0) {
        double quarter = c->size / 4;
        int made = new_cell(c->x + (right ? quarter : -quarter), c->y + (up ? quarter : -quarter), c->size / 2);
        c->child[which] = made;
    }
    return c->child[which];
}

static void insert(int body) {
    int at = 0;
    for (;;) {
        Cell *c = &cell[at];
        int other = c->body;
        c->mass += 1;
        c->sum_x += x[body];
        c->sum_y += y[body];
        if (c->mass == 1) {
            c->body = body;
            return;
        }
        if (c->size < 1e-6 || cells > most - 8) return;
        if (other >= 0) {
            Cell *moved = &cell[child_of(at, other)];
            moved->mass = 1;
            moved->sum_x = x[other];
            moved->sum_y = y[other];
            moved->body = other;
            c->body = -1;
        }
        at = child_of(at, body);
    }
}

static void build(void) {
    cells = 0;
    new_cell(0, 0, 4);
    for (int i = 0; i < bodies; i++) insert(i);
}

static void attract(int body) {
    int open[256], many = 1;
    double to_x = 0, to_y = 0;
    open[0] = 0;
    while (many) {
        const Cell *c = &cell[open[--many]];
        double dx = c->sum_x / c->mass - x[body], dy = c->sum_y / c->mass - y[body], far = dx * dx + dy * dy + 1e-4;
        if (c->body >= 0 || c->size * c->size < 0.3 * far) {
            double force = c->mass / (far * sqrt(far));
            to_x += force * dx;
            to_y += force * dy;
            continue;
        }
        for (int i = 0; i < 4; i++)
            if (c->child[i] >= 0) open[many++] = c->child[i];
    }
    fast_x[body] += 1e-9 * to_x;
    fast_y[body] += 1e-9 * to_y;
}

static void step(void) {
    build();
    for (int part = 0; part < parts; part++) {
#pragma omp task
        for (int i = bodies / parts * part; i < bodies / parts * (part + 1); i++) attract(i);
    }
#pragma omp taskwait
    for (int i = 0; i < bodies; i++) {
        x[i] += fast_x[i];
        y[i] += fast_y[i];
    }
}

int main(void) {
    srand(4);
    for (int i = 0; i < bodies; i++) {
        double far = (double)rand() / RAND_MAX, turn = 6.283 * rand() / RAND_MAX;
        x[i] = far * far * cos(turn);
        y[i] = far * far * sin(turn);
    }
#pragma omp parallel
#pragma omp single
    for (int i = 0; i < steps; i++) step();
    printf("%.9f %d\n", x[17], cells);
    return 0;
}
