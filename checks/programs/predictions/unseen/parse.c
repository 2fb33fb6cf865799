/* Reads the objects of a JSON text, a task for each part of its lines, and then puts all strings into one array without
 * their escapes; rewritten, eight tasks do that. */
#include <stdio.h>
#include <stdlib.h>
#include <string.h>

enum { objects = 64000, longest = 160, parts = 32, strings_of = 2 };
#ifdef REWRITTEN
enum { pieces = 8 };
#else
enum { pieces = 1 };
#endif
static char text[objects * longest], *line[objects + 1], plain[objects * longest];
static const char *string[objects * strings_of];
static long offset[objects * strings_of + 1];
static double sum[parts];

static void make_text(void) {
    char *at = text;
    unsigned x = 77;
    for (int i = 0; i < objects; i++) {
        x = x * 1664525u + 1013904223u;
        line[i] = at;
        at += sprintf(at, "{\"id\": %d, \"name\": \"n%u \\\"%u\\\" \\\\ of a long line\", \"value\": %u.%u, \"tags\": "
                      "[%u, %u, %u, -%u], \"note\": \"%.*s\"}\n", i, x >> 8, x % 977, x >> 20, x % 1000, x % 7, x % 11,
                      x % 13, x % 99991, (int)(x >> 24) % 40 + 4, "a note that has \\n and \\t more than once \\n \\t");
    }
    line[objects] = at;
}

static const char *string_end(const char *at) {
    for (; *at != '"'; at++) at += *at == '\\';
    return at;
}

static long plain_length(const char *at) {
    long many = 0;
    for (; *at != '"'; at++, many++) at += *at == '\\';
    return many;
}

static double read_object(int object, const char *at, const char *end) {
    double numbers = 0;
    int known = 0;
    while (at < end) {
        if (*at == '"') {
            const char *begin = at + 1;
            at = string_end(begin) + 1;
            if (*at == ':' || known == strings_of) continue;
            string[object * strings_of + known] = begin;
            offset[object * strings_of + known++ + 1] = plain_length(begin);
        } else if (*at == '-' || (*at >= '0' && *at <= '9')) {
            char *behind;
            numbers += strtod(at, &behind);
            at = behind;
        } else {
            at++;
        }
    }
    return numbers;
}

static void read_part(int part) {
    double numbers = 0;
    for (int i = part * (objects / parts); i < (part + 1) * (objects / parts); i++)
        numbers += read_object(i, line[i], line[i + 1]);
    sum[part] = numbers;
}

static void put_strings(long from, long to) {
    for (long i = from; i < to; i++) {
        char *out = plain + offset[i];
        for (const char *at = string[i]; at && *at != '"'; at++) {
            at += *at == '\\';
            *out++ = *at;
        }
    }
}

static void put_all(void) {
    long many = (long)objects * strings_of;
    for (long i = 0; i < many; i++) offset[i + 1] += offset[i];
    for (int i = 0; i < pieces - 1; i++) {
#pragma omp task
        put_strings(many * i / pieces, many * (i + 1) / pieces);
    }
    put_strings(many * (pieces - 1) / pieces, many);
#pragma omp taskwait
}

int main(void) {
    make_text();
#pragma omp parallel
#pragma omp single
    {
        for (int i = 0; i < parts; i++) {
#pragma omp task
            read_part(i);
        }
#pragma omp taskwait
        put_all();
    }
    double numbers = 0;
    for (int i = 0; i < parts; i++) numbers += sum[i];
    printf("%.3f %ld %c\n", numbers, offset[objects * strings_of], plain[100000]);
    return 0;
}
