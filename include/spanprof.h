/* libspanprof: what spanprof tells of a text of OpenMP tasks, without a process for it. spanprof(3) says more.

   Each call takes a text of `bytes` bytes, and whether it may be of any size. Most take costs: one for each segment, in
   the order of their numbers, or SPANPROF_OWN_COSTS, which stands for the two arguments and means the text's own. No
   pointer may be null. What a call fills may not overlap what it reads or fills besides.

   A call answers SPANPROF_DONE, or the number of a refusal. It also writes *place: where the refusal lies. After a
   refusal, what else it was to fill is as it was.

   Nothing is kept between calls, so threads may call at the same time. A call takes memory from malloc and gives all of
   it back. It may not be made from a signal handler. */
#ifndef SPANPROF_H
#define SPANPROF_H

#include <stdbool.h>
#include <stddef.h>
#include <stdint.h>

#define SPANPROF_VERSION "0.1.0"

#ifdef __cplusplus
extern "C" {
#endif

enum {
    SPANPROF_DONE = 0,

    /* The text is no program. The kinds are those of the error lines of spanprof(1). */
    SPANPROF_TOO_LONG = 1,
    SPANPROF_BAD_HEADER = 2,
    SPANPROF_BAD_BYTE = 3,
    SPANPROF_BAD_WORD = 4,
    SPANPROF_BAD_NUMBER = 5,
    SPANPROF_UNCLOSED = 6,
    SPANPROF_UNOPENED = 7,
    SPANPROF_TOO_DEEP = 8,
    SPANPROF_TOO_MANY_TASKS = 9,
    SPANPROF_TOO_MANY_SEGMENTS = 10,
    SPANPROF_TOO_MANY_ITEMS = 11,
    SPANPROF_WORK_TOO_LARGE = 12,
    SPANPROF_TOO_MANY_TURNS = 14,

    /* Memory ran out. It may be answered in place of anything else. */
    SPANPROF_OUT_OF_MEMORY = 13,

    /* The number of threads is not 1 to 1,024. */
    SPANPROF_THREAD_COUNT = 15,
    /* Costs are given, and not one for each segment. */
    SPANPROF_COST_COUNT = 16,
    /* The costs, or a work, are more than SPANPROF_MOST_WORK together; or a span is more than its work. */
    SPANPROF_COSTS_TOO_LARGE = 17,
    /* A list has not one place for each segment. */
    SPANPROF_WRONG_LENGTH = 18,

    /* The times are not those of a legal run: the first of these that holds, and of its kind the first segment. */
    SPANPROF_MOMENTS = 19,       /* the last moment is before the first, or above SPANPROF_MOST_WORK */
    SPANPROF_WRONG_THREAD = 20,  /* `segment` has a thread that is none of the run's */
    SPANPROF_ENDS_EARLY = 21,    /* `segment` ends before it begins */
    SPANPROF_OUT_OF_TIME = 22,   /* `segment` begins before the first moment, or ends after the last */
    SPANPROF_TOO_SOON = 23,      /* `segment` begins before `other`, which has to precede it, has ended */
    SPANPROF_NOT_APART = 24,     /* `segment` begins while another one runs on its thread */

    /* The certificate does not hold: the first of these tests that it fails. */
    SPANPROF_BAD_FORM = 25,      /* what follows the program is no claim */
    SPANPROF_WRONG_COUNT = 26,   /* its numbers are not those of the program's segments */
    SPANPROF_BROKEN = 27,        /* `other` has to wait for `segment`, and starts before that ends */
    SPANPROF_END_WRONG = 28,     /* the schedule ends elsewhere */
    SPANPROF_CHAIN_STEP = 29,    /* in the chain, `other` follows `segment`, and does not have to wait for it */
    SPANPROF_CHAIN_SUM = 30      /* the chain adds up to something else */
};

#define SPANPROF_MOST_WORK UINT64_C(1000000000000000)
#define SPANPROF_MOST_THREADS UINT32_C(1024)

/* For `any_size`. Within the limits of spanprof(1) a text is read as that program reads it. One of any size, of at most
   4,000,000,000 bytes, is read as spanprof_large reads it, with the same answers where both read it. */
#define SPANPROF_WITHIN_LIMITS false
#define SPANPROF_ANY_SIZE true

/* The thread of a segment of cost 0, which needs none. */
#define SPANPROF_NO_THREAD UINT32_MAX

/* For `costs, count`: the text's own. The address is that of an empty list. */
#define SPANPROF_OWN_COSTS ((const uint64_t *)sizeof(uint64_t)), ((size_t)0)

/* The line of a fault of the text, or the segments of another refusal; 0 for what there is none of. */
typedef struct {
    uint64_t line;
    uint32_t segment, other;
} spanprof_place;

typedef struct {
    uint64_t segments, work, span;
} spanprof_measured;

typedef struct {
    uint64_t work, span, path_length;
} spanprof_analysed;

typedef struct {
    uint64_t least, greatest;
} spanprof_bounded;

typedef struct {
    uint64_t busy, delayed, starved, outside;
} spanprof_accounted;

typedef struct {
    uint64_t segments, ends_at;
} spanprof_certified;

/* The number of segments, the work and the span. Ask this first: the lists of the other calls have a place for each
   segment. */
uint32_t spanprof_measure(const uint8_t *text, size_t bytes, bool any_size, const uint64_t *costs, size_t count,
                          spanprof_measured *told, spanprof_place *place);

/* The task and the text's own cost of each segment. */
uint32_t spanprof_segments(const uint8_t *text, size_t bytes, bool any_size, uint32_t *tasks, size_t tasks_length,
                           uint64_t *costs, size_t costs_length, spanprof_place *place);

/* The earliest start and the slack of each segment. The critical path has told->path_length segments, ascending, which
   stand at the head of `path`; behind them its places keep what they held. */
uint32_t spanprof_analyse(const uint8_t *text, size_t bytes, bool any_size, const uint64_t *costs, size_t count,
                          uint64_t *starts, size_t starts_length, uint64_t *slacks, size_t slacks_length,
                          uint32_t *path, size_t path_length, spanprof_analysed *told, spanprof_place *place);

/* The greedy schedule on 1 to 1,024 threads: when each segment starts and on which thread, from 0 on, and when the last one
   ends. */
uint32_t spanprof_greedy(const uint8_t *text, size_t bytes, bool any_size, const uint64_t *costs, size_t count,
                         uint32_t thread_count, uint64_t *starts, size_t starts_length,
                         uint32_t *threads, size_t threads_length, uint64_t *end, spanprof_place *place);

/* The ends of the greedy schedules on 1, 2, .. ends_length threads: 1 to 1,024. */
uint32_t spanprof_curve(const uint8_t *text, size_t bytes, bool any_size, const uint64_t *costs, size_t count,
                        uint64_t *ends, size_t ends_length, spanprof_place *place);

/* Whether these starts are a legal schedule: one for each segment, and none before a segment that has to precede it
   has ended. */
uint32_t spanprof_is_legal(const uint8_t *text, size_t bytes, bool any_size, const uint64_t *costs, size_t count,
                           const uint64_t *starts, size_t starts_length, bool *legal, spanprof_place *place);

/* The account of a run on 1 to 1,024 threads from one moment to another, by the thread, the begin and the end of each
   segment: how long in all threads were busy, idle while a segment was ready, idle while none was, and outside of all
   segments. `readies` gets when each segment's last predecessor ended; it is 0 for segment 0. */
uint32_t spanprof_account(const uint8_t *text, size_t bytes, bool any_size,
                          uint32_t thread_count, uint64_t first, uint64_t last,
                          const uint32_t *threads, size_t threads_length, const uint64_t *begins, size_t begins_length,
                          const uint64_t *ends, size_t ends_length, uint64_t *readies, size_t readies_length,
                          spanprof_accounted *told, spanprof_place *place);

/* Whether a certificate holds, as `spanprof certify` writes it, whoever wrote it: then no legal schedule of its program
   ends before told->ends_at, on however many threads, and one ends just then. `any_size` speaks of the program; the claim
   behind it may have any number of bytes. */
uint32_t spanprof_check(const uint8_t *document, size_t bytes, bool any_size,
                        spanprof_certified *told, spanprof_place *place);

/* Bounds of this work and span on 1 to 1,024 threads: no schedule ends before `least`, and no greedy schedule after
   `greatest`. */
uint32_t spanprof_bounds(uint64_t work, uint64_t span, uint32_t threads, spanprof_bounded *told);

#ifdef __cplusplus
}
#endif

#endif
