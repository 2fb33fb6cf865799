/* How many ways there are to fill a square of 81 digits, of which few are given: a task for each digit that fits, for
 * the first empty places. */
#include <stdio.h>
#include <string.h>

enum { side = 9, places = side * side, deepest = 8 };
typedef struct {
    unsigned short row[side], column[side], box[side];
    unsigned char digit[places];
} Square;

static int box_of(int place) {
    return place / 27 * 3 + place % side / 3;
}

static unsigned fitting(const Square *s, int place) {
    return ~(s->row[place / side] | s->column[place % side] | s->box[box_of(place)]) & 0x1ff;
}

static void turn(Square *s, int place, unsigned bit) {
    s->row[place / side] ^= bit;
    s->column[place % side] ^= bit;
    s->box[box_of(place)] ^= bit;
}

static int next_empty(const Square *s, int place) {
    while (place < places && s->digit[place]) place++;
    return place;
}

static long alone(Square *s, int place) {
    long ways = 0;
    if (place == places) return 1;
    for (unsigned left = fitting(s, place); left; left &= left - 1) {
        turn(s, place, left & -left);
        ways += alone(s, next_empty(s, place + 1));
        turn(s, place, left & -left);
    }
    return ways;
}

static long count(Square *s, int place, int depth) {
    long ways[side] = {0}, sum = 0;
    int many = 0;
    if (place == places || depth == deepest) return alone(s, place);
    for (unsigned left = fitting(s, place); left; left &= left - 1, many++) {
        unsigned bit = left & -left;
#pragma omp task shared(ways) firstprivate(bit, many)
        {
            Square mine = *s;
            turn(&mine, place, bit);
            ways[many] = count(&mine, next_empty(&mine, place + 1), depth + 1);
        }
    }
#pragma omp taskwait
    for (int i = 0; i < many; i++) sum += ways[i];
    return sum;
}

int main(void) {
    static const char given[] = "..3.2.6..9..3.5..1..18.64....81.29..7.......8..67.82....26.95..8..2.3..9..5.1....";
    static const char hidden[] = "8...2";
    Square s;
    long ways = 0;
    memset(&s, 0, sizeof s);
    for (int i = 0; i < places; i++) {
        if (given[i] == '.' || strchr(hidden, given[i])) continue;
        s.digit[i] = given[i] - '0';
        turn(&s, i, 1u << (s.digit[i] - 1));
    }
#pragma omp parallel
#pragma omp single
    ways = count(&s, next_empty(&s, 0), 0);
    printf("%ld\n", ways);
    return 0;
}
