/* How alike each two of several proteins are, by the best local alignment with gaps: one thread makes a task for each
 * pair. */
#include <stdio.h>

enum { proteins = 40, longest = 420, letters = 20, open_gap = 10, longer_gap = 1 };
static unsigned char protein[proteins][longest];
static int length[proteins], alike[letters][letters], best[proteins][proteins];

static void make_proteins(void) {
    unsigned x = 5;
    for (int i = 0; i < proteins; i++) {
        x = x * 1664525u + 1013904223u;
        length[i] = 80 + (x >> 8) % (longest - 80);
        for (int at = 0; at < length[i]; at++) {
            x = x * 1664525u + 1013904223u;
            protein[i][at] = i && (x >> 28) < 9 ? protein[i - 1][at] : (x >> 8) % letters;
        }
    }
    for (int i = 0; i < letters; i++)
        for (int j = 0; j < letters; j++) alike[i][j] = i == j ? 5 : (i * j + i + j) % 5 - 3;
}

static int greater(int a, int b) {
    return a > b ? a : b;
}

static int align(const unsigned char *a, int many, const unsigned char *b, int others) {
    int score[longest + 1] = {0}, gap[longest + 1], most = 0;
    for (int j = 0; j <= others; j++) gap[j] = -open_gap;
    for (int i = 0; i < many; i++) {
        int diagonal = 0, left_gap = -open_gap;
        for (int j = 1; j <= others; j++) {
            gap[j] = greater(gap[j] - longer_gap, score[j] - open_gap);
            left_gap = greater(left_gap - longer_gap, score[j - 1] - open_gap);
            int found = greater(greater(0, diagonal + alike[a[i]][b[j - 1]]), greater(gap[j], left_gap));
            diagonal = score[j];
            score[j] = found;
            most = greater(most, found);
        }
    }
    return most;
}

int main(void) {
    long sum = 0;
    make_proteins();
#pragma omp parallel
#pragma omp single
    for (int i = 0; i < proteins; i++)
        for (int j = i + 1; j < proteins; j++) {
#pragma omp task
            best[i][j] = align(protein[i], length[i], protein[j], length[j]);
        }
    for (int i = 0; i < proteins; i++)
        for (int j = i + 1; j < proteins; j++) sum += best[i][j];
    printf("%ld\n", sum);
    return 0;
}
