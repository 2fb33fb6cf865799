/* Answers some of the commands of spanprof by the library, with the same texts and statuses: span, slack, greedy
   --threads N, curve --upto N, whatif S=C .., check, and of spanprof_large account and account --rows. With `any` before
   them it reads texts of any size. What it hands to the library ends where a page begins that may not be touched, so
   that a byte too much ends the program. It takes no memory from malloc. */
#define _GNU_SOURCE
#include <inttypes.h>
#include <stdio.h>
#include <stdlib.h>
#include <string.h>
#include <sys/mman.h>
#include <unistd.h>

#include "spanprof.h"

static const char *const kinds[] = {"", "TooLong", "BadHeader", "BadByte", "BadWord", "BadNumber", "Unclosed",
    "Unopened", "TooDeep", "TooManyTasks", "TooManySegments", "TooManyItems", "WorkTooLarge", "OutOfMemory",
    "TooManyTurns", "ThreadCount", "CostCount", "CostsTooLarge", "WrongLength", "Moments", "NoThread", "EndsEarly",
    "OutOfTime", "TooSoon", "NotApart", "BadForm", "WrongCount", "Broken", "EndWrong", "ChainStep", "ChainSum"};

static bool any_size = SPANPROF_WITHIN_LIMITS;
static spanprof_place place = {77, 77, 77};

typedef struct {
    const uint8_t *bytes;
    size_t length;
    spanprof_measured told;
    const uint64_t *own;  /* the text's own costs */
} text_of_tasks;

static _Noreturn void give_up(const char *why) {
    fprintf(stderr, "ask: %s\n", why);
    exit(70);
}

/* Room for so many bytes, whose end is the end of a page. */
static void *room(size_t bytes) {
    const size_t page = (size_t)sysconf(_SC_PAGESIZE), pages = (bytes + page - 1) / page + 1;
    uint8_t *start = mmap(NULL, (pages + 1) * page, PROT_READ | PROT_WRITE, MAP_PRIVATE | MAP_ANONYMOUS, -1, 0);
    if (start == MAP_FAILED || mprotect(start + pages * page, page, PROT_NONE)) give_up("no room");
    memset(start, 0xA5, pages * page);
    return start + pages * page - bytes;
}

/* The line of a refusal, as the commands have it. */
static _Noreturn void refuse(uint32_t number) {
    if (number == SPANPROF_OUT_OF_MEMORY) {
        puts("error: out of memory");
        exit(3);
    }
    if (number >= sizeof kinds / sizeof *kinds) give_up("an unknown number");
    if (place.line) printf("error: line %" PRIu64 ": %s\n", place.line, kinds[number]);
    else if (number == SPANPROF_TOO_SOON || number == SPANPROF_BROKEN || number == SPANPROF_CHAIN_STEP)
        printf("error: %s %" PRIu32 " %" PRIu32 "\n", kinds[number], place.segment, place.other);
    else if (number > SPANPROF_MOMENTS && number < SPANPROF_BAD_FORM)
        printf("error: %s %" PRIu32 "\n", kinds[number], place.segment);
    else printf("error: %s\n", kinds[number]);
    exit(1);
}

static void need(uint32_t number) {
    if (number != SPANPROF_DONE) refuse(number);
    if (place.line || place.segment || place.other) give_up("a place without a refusal");
    place = (spanprof_place){77, 77, 77};
}

static const uint8_t *read_input(size_t *length) {
    static uint8_t kept[(size_t)64 << 20];
    size_t taken = 0;
    ssize_t got;
    while (taken < sizeof kept && (got = read(0, kept + taken, sizeof kept - taken)) > 0) taken += (size_t)got;
    if (taken == sizeof kept) give_up("the input is too long");
    *length = taken;
    return memcpy(room(taken), kept, taken);
}

static text_of_tasks read_text(void) {
    text_of_tasks text;
    text.bytes = read_input(&text.length);
    spanprof_measured *told = room(sizeof *told);
    need(spanprof_measure(text.bytes, text.length, any_size, SPANPROF_OWN_COSTS, told, &place));
    text.told = *told;
    text.own = NULL;
    return text;
}

static size_t list_bytes(const text_of_tasks *text, size_t each) { return (size_t)text->told.segments * each; }

static uint32_t *tell_segments(text_of_tasks *text) {
    uint32_t *tasks = room(list_bytes(text, sizeof *tasks));
    uint64_t *costs = room(list_bytes(text, sizeof *costs));
    need(spanprof_segments(text->bytes, text->length, any_size, tasks, text->told.segments, costs, text->told.segments,
                           &place));
    text->own = costs;
    return tasks;
}

static void span(void) {
    const text_of_tasks text = read_text();
    printf("segments %" PRIu64 "\nwork %" PRIu64 "\nspan %" PRIu64 "\n", text.told.segments, text.told.work,
           text.told.span);
}

static void slack(void) {
    text_of_tasks text = read_text();
    const size_t many = (size_t)text.told.segments;
    const uint32_t *tasks = tell_segments(&text);
    uint64_t *starts = room(many * 8), *slacks = room(many * 8);
    uint32_t *path = room(many * 4);
    spanprof_analysed *told = room(sizeof *told);
    need(spanprof_analyse(text.bytes, text.length, any_size, SPANPROF_OWN_COSTS, starts, many, slacks, many, path, many,
                          told, &place));
    if (told->work != text.told.work || told->span != text.told.span) give_up("another work or span");
    size_t next = 0;
    puts("segment,task,cost,start,slack,chain");
    for (size_t s = 0; s < many; s++) {
        const int on_path = next < told->path_length && path[next] == s;
        printf("%zu,%" PRIu32 ",%" PRIu64 ",%" PRIu64 ",%" PRIu64 ",%d\n", s, tasks[s], text.own[s], starts[s],
               slacks[s], on_path);
        next += (size_t)on_path;
    }
    if (next != told->path_length) give_up("a path out of order");
}

static void greedy(uint32_t count) {
    text_of_tasks text = read_text();
    const size_t many = (size_t)text.told.segments;
    tell_segments(&text);
    uint64_t *starts = room(many * 8), *end = room(8), last = 0;
    uint32_t *threads = room(many * 4);
    bool *legal = room(1);
    need(spanprof_greedy(text.bytes, text.length, any_size, SPANPROF_OWN_COSTS, count, starts, many, threads, many, end,
                         &place));
    need(spanprof_is_legal(text.bytes, text.length, any_size, SPANPROF_OWN_COSTS, starts, many, legal, &place));
    puts("segment,start,end,thread");
    for (size_t s = 0; s < many; s++) {
        printf("%zu,%" PRIu64 ",%" PRIu64 ",", s, starts[s], starts[s] + text.own[s]);
        if (threads[s] != SPANPROF_NO_THREAD) printf("%" PRIu32, threads[s]);
        puts("");
        if (starts[s] + text.own[s] > last) last = starts[s] + text.own[s];
    }
    if (last != *end || !*legal) give_up("another end, or no legal schedule");
}

static void curve(uint32_t upto) {
    const text_of_tasks text = read_text();
    uint64_t *ends = room((size_t)upto * 8);
    need(spanprof_curve(text.bytes, text.length, any_size, SPANPROF_OWN_COSTS, ends, upto, &place));
    spanprof_bounded *told = room(sizeof *told);
    puts("threads,end,least,bound");
    for (uint32_t p = 1; p <= upto; p++) {
        if (spanprof_bounds(text.told.work, text.told.span, p, told)) give_up("no bounds");
        printf("%" PRIu32 ",%" PRIu64 ",%" PRIu64 ",%" PRIu64 "\n", p, ends[p - 1], told->least, told->greatest);
    }
}

static void whatif(char **changes) {
    text_of_tasks text = read_text();
    const size_t many = (size_t)text.told.segments;
    tell_segments(&text);
    uint64_t *costs = memcpy(room(many * 8), text.own, many * 8);
    for (; *changes; changes++) {
        char *rest;
        const unsigned long segment = strtoul(*changes, &rest, 10);
        if (*rest != '=' || segment >= many) give_up("a change that is none");
        costs[segment] = strtoull(rest + 1, NULL, 10);
    }
    spanprof_measured *told = room(sizeof *told);
    need(spanprof_measure(text.bytes, text.length, any_size, costs, many, told, &place));
    printf("work %" PRIu64 "\nspan %" PRIu64 "\nwas %" PRIu64 "\n", told->work, told->span, text.told.span);
}

static void check(void) {
    size_t length;
    const uint8_t *document = read_input(&length);
    spanprof_certified *told = room(sizeof *told);
    need(spanprof_check(document, length, any_size, told, &place));
    printf("accepted\nsegments %" PRIu64 "\nend %" PRIu64 "\n", told->segments, told->ends_at);
}

/* The next number of a text, which moves on. */
static uint64_t number(char **rest) {
    char *from = *rest;
    const uint64_t found = strtoull(from, rest, 10);
    if (*rest == from) give_up("no number");
    return found;
}

/* What stands behind the line `---` of a document, as characters; the text before it becomes the text of tasks. */
static char *read_timed(text_of_tasks *text) {
    static const char divider[] = "\n---\ntimes ";
    size_t length;
    const uint8_t *document = read_input(&length);
    const char *found = memmem(document, length, divider, strlen(divider));
    if (!found) give_up("no times");
    text->length = (size_t)((const uint8_t *)found - document) + 1;
    text->bytes = memcpy(room(text->length), document, text->length);
    const char *times = found + strlen(divider);
    const size_t more = length - (size_t)((const uint8_t *)times - document);
    char *rest = room(more + 1);
    memcpy(rest, times, more);
    rest[more] = 0;
    return rest;
}

static void account(bool rows) {
    text_of_tasks text = {0};
    char *rest = read_timed(&text);
    spanprof_measured *measured = room(sizeof *measured);
    need(spanprof_measure(text.bytes, text.length, any_size, SPANPROF_OWN_COSTS, measured, &place));
    const size_t many = (size_t)measured->segments;
    const uint32_t count = (uint32_t)number(&rest);
    const uint64_t first = number(&rest), last = number(&rest);
    uint32_t *threads = room(many * 4);
    uint64_t *begins = room(many * 8), *ends = room(many * 8), *readies = room(many * 8);
    for (size_t line = 0; line < many; line++) {
        const size_t s = (size_t)number(&rest);
        if (s >= many) give_up("no such segment");
        threads[s] = (uint32_t)number(&rest);
        begins[s] = number(&rest);
        ends[s] = number(&rest);
    }
    spanprof_accounted *told = room(sizeof *told);
    need(spanprof_account(text.bytes, text.length, any_size, count, first, last, threads, many, begins, many, ends,
                          many, readies, many, told, &place));
    if (!rows) {
        printf("threads %" PRIu32 "\nelapsed %" PRIu64 "\nbusy %" PRIu64 "\ndelayed %" PRIu64 "\n", count, last - first,
               told->busy, told->delayed);
        printf("starved %" PRIu64 "\noutside %" PRIu64 "\n", told->starved, told->outside);
        return;
    }
    puts("segment,thread,ready,begin,end");
    for (size_t s = 0; s < many; s++)
        printf("%zu,%" PRIu32 ",%" PRIu64 ",%" PRIu64 ",%" PRIu64 "\n", s, threads[s],
               readies[s] > first ? readies[s] : first, begins[s], ends[s]);
}

int main(int count, char **words) {
    static char buffer[1 << 16];
    setvbuf(stdout, buffer, _IOFBF, sizeof buffer);
    if (count > 1 && !strcmp(words[1], "any")) {
        any_size = SPANPROF_ANY_SIZE;
        count--;
        words++;
    }
    const char *command = count > 1 ? words[1] : "";
    if (!strcmp(command, "span")) span();
    else if (!strcmp(command, "slack")) slack();
    else if (!strcmp(command, "greedy") && count == 4) greedy((uint32_t)strtoul(words[3], NULL, 10));
    else if (!strcmp(command, "curve") && count == 4) curve((uint32_t)strtoul(words[3], NULL, 10));
    else if (!strcmp(command, "whatif") && count > 2) whatif(words + 2);
    else if (!strcmp(command, "check") && count == 2) check();
    else if (!strcmp(command, "account")) account(count == 3);
    else give_up("it knows no such words");
    return 0;
}
