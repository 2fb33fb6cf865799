/* Counts the words of a text in a table with a lock for each part of it, a task for each piece of the text; rewritten,
 * five times as many tasks. */
#include <omp.h>
#include <stdio.h>
#include <string.h>

enum { length = 3200000, slots = 1 << 16, locks = 64, longest = 12 };
#ifdef REWRITTEN
enum { pieces = 30 };
#else
enum { pieces = 6 };
#endif
typedef struct {
    char word[longest];
    int count;
} Slot;
static char text[length + 1];
static Slot slot[slots];
static omp_lock_t lock[locks];

static void count_word(const char *word, int many) {
    unsigned long hash = 14695981039346656037UL;
    for (int i = 0; i < many; i++) hash = (hash ^ (unsigned char)word[i]) * 1099511628211UL;
    unsigned part = hash % locks, first = part * (slots / locks), at = (hash >> 20) % (slots / locks);
    omp_set_lock(&lock[part]);
    for (;; at = (at + 1) % (slots / locks)) {
        Slot *s = &slot[first + at];
        if (s->count && (memcmp(s->word, word, many) || s->word[many])) continue;
        if (!s->count++) memcpy(s->word, word, many);
        break;
    }
    omp_unset_lock(&lock[part]);
}

static void count_piece(const char *at, const char *end) {
    while (at < end) {
        const char *begin = at;
        while (at < end && *at != ' ') at++;
        if (at > begin) count_word(begin, at - begin);
        at++;
    }
}

static long after_a_word(long at) {
    while (at && at < length && text[at - 1] != ' ') at++;
    return at;
}

static void make_text(void) {
    unsigned x = 15;
    for (long at = 0; at < length;) {
        x = x * 1664525u + 1013904223u;
        unsigned number = (x >> 8) % ((x >> 28) ? 600 : 30000);
        for (int i = 0; i < 3 + (int)(number % 8) && at < length; i++, number = number * 7 + 5)
            text[at++] = 'a' + number % 26;
        if (at < length) text[at++] = ' ';
    }
}

int main(void) {
    long words = 0, most = 0;
    make_text();
    for (int i = 0; i < locks; i++) omp_init_lock(&lock[i]);
#pragma omp parallel
#pragma omp single
    for (long i = 0; i < pieces; i++) {
#pragma omp task
        count_piece(text + after_a_word(length / pieces * i),
                    text + (i == pieces - 1 ? length : after_a_word(length / pieces * (i + 1))));
    }
    for (int i = 0; i < slots; i++) {
        words += slot[i].count;
        if (slot[i].count > most) most = slot[i].count;
    }
    printf("%ld %ld\n", words, most);
    return 0;
}
