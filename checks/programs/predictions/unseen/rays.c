/* A picture of mirroring spheres by rays, several through each point, by a taskloop over its tiles; rewritten, half as
 * many rays. */
#include <math.h>
#include <stdio.h>

enum { side = 320, tile = 16, tiles = side / tile, spheres = 24, mirrors = 4 };
#ifdef REWRITTEN
enum { rays = 2 };
#else
enum { rays = 4 };
#endif
typedef struct {
    float x, y, z;
} Vector;
static Vector centre[spheres];
static float radius[spheres], picture[side][side];

static Vector along(Vector from, Vector way, float far) {
    return (Vector){from.x + way.x * far, from.y + way.y * far, from.z + way.z * far};
}

static float product(Vector a, Vector b) {
    return a.x * b.x + a.y * b.y + a.z * b.z;
}

static Vector unit(Vector a) {
    return along((Vector){0, 0, 0}, a, 1 / sqrtf(product(a, a)));
}

static float until(Vector from, Vector way, int sphere) {
    Vector to = along(centre[sphere], from, -1);
    float b = product(to, way), d = b * b - product(to, to) + radius[sphere] * radius[sphere];
    return d < 0 ? -1 : b - sqrtf(d);
}

static float light(Vector from, Vector way) {
    float seen = 0, share = 1;
    for (int mirror = 0; mirror < mirrors; mirror++) {
        float least = 1e9f;
        int hit = -1;
        for (int i = 0; i < spheres; i++) {
            float far = until(from, way, i);
            if (far > 1e-3f && far < least) {
                least = far;
                hit = i;
            }
        }
        if (hit < 0) return seen + share * (0.5f + 0.5f * way.y);
        from = along(from, way, least);
        Vector normal = unit(along(from, centre[hit], -1));
        seen += share * 0.3f * fabsf(normal.z);
        share *= 0.7f;
        way = along(way, normal, -2 * product(way, normal));
    }
    return seen;
}

static void draw(int number) {
    int top = number / tiles * tile, left = number % tiles * tile;
    for (int i = top; i < top + tile; i++)
        for (int j = left; j < left + tile; j++) {
            float sum = 0;
            for (int ray = 0; ray < rays; ray++)
                sum += light((Vector){0, 0, -4}, unit((Vector){(j + 0.25f * ray) / side - 0.5f,
                                                               0.5f - (i + 0.2f * ray) / side, 1}));
            picture[i][j] = sum / rays;
        }
}

int main(void) {
    unsigned x = 12;
    for (int i = 0; i < spheres; i++) {
        x = x * 1664525u + 1013904223u;
        centre[i] = (Vector){(x >> 8) % 400 / 100.0f - 2, (x >> 12) % 300 / 100.0f - 1, (x >> 16) % 500 / 100.0f};
        radius[i] = 0.2f + (x >> 24) % 50 / 100.0f;
    }
#pragma omp parallel
#pragma omp single
    {
#pragma omp taskloop grainsize(4)
        for (int i = 0; i < tiles * tiles; i++) draw(i);
    }
    double sum = 0;
    for (int i = 0; i < side; i++)
        for (int j = 0; j < side; j++) sum += picture[i][j];
    printf("%.1f\n", sum);
    return 0;
}
