/* A picture of the Mandelbrot set by squares: where the whole edge of one took as many turns it is filled, else each of
 * its quarters is a task. */
#include <stdio.h>

enum { side = 1024, smallest = 32, most = 400 };
static int picture[side][side];

static int turns(int x, int y) {
    double a = -0.7436 + (x - side / 2) * 3e-3 / side, b = 0.1318 + (y - side / 2) * 3e-3 / side, re = a, im = b;
    int many = 0;
    for (; many < most && re * re + im * im < 4; many++) {
        double next = re * re - im * im + a;
        im = 2 * re * im + b;
        re = next;
    }
    return many;
}

static int has_one_edge(int x, int y, int wide) {
    int first = turns(x, y), is_same = 1;
    for (int i = 0; i < wide; i++) {
        is_same &= (picture[y][x + i] = turns(x + i, y)) == first;
        is_same &= (picture[y + wide - 1][x + i] = turns(x + i, y + wide - 1)) == first;
        is_same &= (picture[y + i][x] = turns(x, y + i)) == first;
        is_same &= (picture[y + i][x + wide - 1] = turns(x + wide - 1, y + i)) == first;
    }
    return is_same;
}

static void fill(int x, int y, int wide) {
    for (int j = 1; j < wide - 1; j++)
        for (int i = 1; i < wide - 1; i++) picture[y + j][x + i] = picture[y][x];
}

static void paint(int x, int y, int wide) {
    if (wide <= smallest) {
        for (int j = 0; j < wide; j++)
            for (int i = 0; i < wide; i++) picture[y + j][x + i] = turns(x + i, y + j);
    } else if (has_one_edge(x, y, wide)) {
        fill(x, y, wide);
    } else {
        for (int quarter = 0; quarter < 4; quarter++) {
#pragma omp task
            paint(x + quarter % 2 * wide / 2, y + quarter / 2 * wide / 2, wide / 2);
        }
    }
}

int main(void) {
    long sum = 0;
#pragma omp parallel
#pragma omp single
    paint(0, 0, side);
    for (int y = 0; y < side; y++)
        for (int x = 0; x < side; x++) sum += picture[y][x];
    printf("%ld\n", sum);
    return 0;
}
