/* What a generated program calls, and what it defines. */
#ifndef CONFORMANCE_H
#define CONFORMANCE_H

enum role { WAITED_FOR = 1, CREATES = 2 }; /* another task waits for the end of the segment; it creates a task */

struct conformance_program {
    unsigned segments;
    const unsigned *cost;        /* of each segment */
    const unsigned *preds_begin; /* where the predecessors of each segment begin; one more at the end */
    const unsigned *preds;
    const unsigned char *roles; /* of each segment: sums of `enum role` */
    int regions;                /* 1 where the root itself opens its parallel regions */
};

extern const struct conformance_program program; /* generated */
void program_root(int threads);                  /* generated: the body of the root */

/* 0 and 1, which the compiler cannot know: conditions with them are decided when the program runs. */
extern volatile int conformance_no, conformance_yes;
extern int conformance_in_region; /* 0 where tasks are created outside of any region */

/* The modifier of `grainsize` and `num_tasks`, which clang knows from 15 on. */
#if defined __clang__ && __clang_major__ < 15
#define STRICT
#define KNOWS_STRICT 0
#else
#define STRICT strict:
#define KNOWS_STRICT 1
#endif

/* The length of an array that a task has as its own. gcc copies one whose length it does not know by a function, which
 * the runtime calls; clang has no such arrays in tasks. gcc's runtime makes tasks of `target nowait` for the host. */
#ifdef __clang__
#define COPIED_LENGTH 1
#else
#define COPIED_LENGTH conformance_yes
#define HAS_HOST_TARGET
#endif

/* Ends the life of a depend object. clang 19 refuses both forms of `destroy` where it is told of OpenMP 5.2. */
#if defined __clang__ && __clang_major__ > 16 && _OPENMP >= 202111
#define END_OF_OBJECT(object)
#else
#define PRAGMA(words) _Pragma(#words)
#define END_OF_OBJECT(object) PRAGMA(omp depobj(object) destroy)
#endif

void segment_start(unsigned segment); /* first in each segment's code */
void segment_finish(void);            /* last in each segment's code */
/* First in each turn of a taskloop: OWN is the number of its task, at first 0. */
void taskloop_turn(unsigned *own, unsigned segment);
void expect(const char *what, long seen, long right); /* of what the runtime made: the first that is wrong is logged */
int is_turn(long turn, long first, long last);          /* of a taskloop; one that is not is logged */
void segment_pass(unsigned segment);  /* a whole segment without code of its own */
void segment_pass_on_host(unsigned segment); /* the same in a target region, where threads have other numbers */
void team_begins(void);               /* first in each thread of a region */
#endif
