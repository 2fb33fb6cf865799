/* Packs a text block by block: a task reads a block, one packs it, and one adds it to the output, in order. */
#include <stdio.h>
#include <string.h>

enum { bytes = 3 << 20, block = 1 << 15, blocks = bytes / block, slots = 1 << 12, longest = 250, least = 4 };
static unsigned char text[bytes], packed[blocks][2 * block], output[2 * bytes];
static int packed_bytes[blocks];
static long written;

static void make(int which) {
    unsigned x = which + 1;
    for (int at = which * block; at < (which + 1) * block;) {
        x = x * 1664525u + 1013904223u;
        unsigned word = (x >> 8) % 3000;
        for (unsigned i = 0; i < 2 + word % 9 && at < (which + 1) * block; i++, word = word * 5 + 3)
            text[at++] = 'a' + word % 26;
        if (at < (which + 1) * block) text[at++] = ' ';
    }
}

static unsigned slot_of(const unsigned char *at) {
    unsigned four;
    memcpy(&four, at, sizeof four);
    return four * 2654435761u >> 20;
}

static int same(const unsigned char *a, const unsigned char *b, int most) {
    int many = 0;
    while (many < most && a[many] == b[many]) many++;
    return many;
}

static void pack(int which) {
    int seen[slots], out = 0;
    const unsigned char *in = text + which * block;
    memset(seen, -1, sizeof seen);
    for (int at = 0; at < block;) {
        int most = block - at < longest ? block - at : longest, found = 0, from = -1;
        if (most >= least) {
            from = seen[slot_of(in + at)];
            seen[slot_of(in + at)] = at;
            if (from >= 0) found = same(in + from, in + at, most);
        }
        if (found >= least) {
            packed[which][out++] = 255;
            packed[which][out++] = (at - from) >> 8;
            packed[which][out++] = (at - from) & 255;
            packed[which][out++] = found;
            at += found;
        } else {
            packed[which][out++] = in[at++];
        }
    }
    packed_bytes[which] = out;
}

static void append(int which) {
    memcpy(output + written, packed[which], packed_bytes[which]);
    written += packed_bytes[which];
}

int main(void) {
    long sum = 0;
#pragma omp parallel
#pragma omp single
    for (int i = 0; i < blocks; i++) {
#pragma omp task depend(out : text[i * block])
        make(i);
#pragma omp task depend(in : text[i * block]) depend(out : packed_bytes[i])
        pack(i);
#pragma omp task depend(in : packed_bytes[i]) depend(inout : written)
        append(i);
    }
    for (long i = 0; i < written; i++) sum = sum * 31 + output[i];
    printf("%ld %ld\n", written, sum);
    return 0;
}
