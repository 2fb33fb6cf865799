/* Four in a row, twelve moves ahead: after the first move of a position the others are searched as tasks, each with
 * what the first one gained as its bound, down to depth 3 and seven moves; rewritten, as tasks only to depth 2. */
#include <stdio.h>

enum { columns = 7, rows = 6, moves = 12, won = 1000, deepest = 3, fewest = 7 };
#ifdef REWRITTEN
enum { deepest_task = 2 };
#else
enum { deepest_task = deepest };
#endif
typedef unsigned long Stones;   /* seven bits for each column, the highest one stays empty */
typedef struct {
    Stones mine, all;
} Position;
static const int order[columns] = {3, 2, 4, 1, 5, 0, 6};

static int has_four(Stones s) {
    static const int apart[4] = {1, rows, rows + 1, rows + 2};
    for (int i = 0; i < 4; i++) {
        Stones pairs = s & (s >> apart[i]);
        if (pairs & (pairs >> 2 * apart[i])) return 1;
    }
    return 0;
}

static Stones stone_in(Stones all, int column) {
    Stones bottom = 1UL << column * (rows + 1), top = bottom << (rows - 1);
    return all & top ? 0 : ((all + bottom) | all) ^ all;
}

static int worth(Position p) {
    static const Stones middle = 0x3fUL << 3 * (rows + 1), beside = 0x3fUL << 2 * (rows + 1) | 0x3fUL << 4 * (rows + 1);
    Stones theirs = p.all ^ p.mine;
    return 2 * (__builtin_popcountl(p.mine & middle) - __builtin_popcountl(theirs & middle)) +
           __builtin_popcountl(p.mine & beside) - __builtin_popcountl(theirs & beside);
}

static Position after(Position p, Stones stone) {
    return (Position){p.all ^ p.mine, p.all | stone};
}

static int search(Position p, int left, int least, int most, int depth);

static int gain(Position p, Stones stone, int left, int least, int most, int depth) {
    if (has_four(p.mine | stone)) return won + left;
    return -search(after(p, stone), left - 1, -most, -least, depth);
}

static int alone(Position p, Stones *stones, int many, int left, int best, int most) {
    for (int i = 0; i < many && best < most; i++) {
        int found = gain(p, stones[i], left, best, most, deepest);
        if (found > best) best = found;
    }
    return best;
}

static int brothers(Position p, Stones *stones, int many, int left, int best, int most, int depth) {
    int found[columns];
    if (depth == deepest_task) {
        for (int i = 0; i < many; i++) found[i] = gain(p, stones[i], left, best, most, depth + 1);
    } else {
        for (int i = 0; i < many; i++) {
#pragma omp task shared(found) firstprivate(i)
            found[i] = gain(p, stones[i], left, best, most, depth + 1);
        }
#pragma omp taskwait
    }
    for (int i = 0; i < many; i++)
        if (found[i] > best) best = found[i];
    return best;
}

static int search(Position p, int left, int least, int most, int depth) {
    if (!left) return worth(p);
    Stones stones[columns];
    int many = 0;
    for (int i = 0; i < columns; i++) {
        stones[many] = stone_in(p.all, order[i]);
        many += stones[many] != 0;
    }
    if (!many) return 0;
    int best = gain(p, stones[0], left, least, most, depth);
    if (best < least) best = least;
    if (best >= most) return best;
    if (depth == deepest || left < fewest) return alone(p, stones + 1, many - 1, left, best, most);
    return brothers(p, stones + 1, many - 1, left, best, most, depth);
}

int main(void) {
    int found = 0;
#pragma omp parallel
#pragma omp single
    found = search((Position){0, 0}, moves, -2 * won, 2 * won, 0);
    printf("%d\n", found);
    return 0;
}
