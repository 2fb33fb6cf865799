// The calls of gcc's runtime that gcc writes into a program, which LLVM's runtime has too, each told to `shape` and
// passed on.
#include <cstring>
#include <map>
#include <mutex>

#include "entries.hpp"
#include "shape.hpp"

using namespace shape;

namespace {

using Code = void (*)(void *);
using Copier = void (*)(void *, void *);
enum Flags { FINAL = 2, DEPEND = 8, LOOP_IF = 1 << 10, LOOP_NOGROUP = 1 << 11 };

struct Entry {
    Code code;
    Copier copier;
    std::size_t size;  // of the data; our pointer to the task stands behind them
    bool operator==(const Entry &other) const {
        return code == other.code && copier == other.copier && size == other.size;
    }
};
Entries<Entry> &entries() { static auto *it = new Entries<Entry>; return *it; }

Task *&task_behind(void *data, std::size_t size) {
    return *reinterpret_cast<Task **>(static_cast<char *>(data) + size);
}

template <int N>
struct Before {
    static void before(void *data) {
        const Entry &entry = entries()[N];
        Task *task = task_behind(data, entry.size);
        enter(task->is_loop ? begin_turns(task) : task);
        {
            InRuntime no(false);
            entry.code(data);
        }
        leave();
    }
};
template <int N>
struct Copied {
    static void before(void *to, void *from) {
        const Entry &entry = entries()[N];
        entry.copier(to, from);
        task_behind(to, entry.size) = task_behind(from, entry.size);
    }
};
using Numbers = std::make_integer_sequence<int, MOST_ENTRIES>;
Code before(int number) {
    static const auto *all = new auto(every_before<Code, Before>(Numbers{}));
    return (*all)[number];
}
Copier copied(int number) {
    static const auto *all = new auto(every_before<Copier, Copied>(Numbers{}));
    return (*all)[number];
}

// The runtime's list: the number of items and of those that write, or in a longer form also of two kinds of sets.
std::vector<Item> items_of(void **depend) {
    const auto number = [&](int i) { return reinterpret_cast<std::size_t>(depend[i]); };
    const bool is_short = number(0) != 0;
    const std::size_t all = number(is_short ? 0 : 1), written = number(is_short ? 1 : 2);
    const std::size_t exclusive = is_short ? 0 : number(3), read = is_short ? all - written : number(4);
    void **of = depend + (is_short ? 2 : 5);
    std::vector<Item> items;
    for (std::size_t i = 0; i < all; i++) {
        const void *address = of[i];
        const char *kind = i < written ? "inout" : i < written + exclusive ? "inoutset" : "in";
        if (i >= written + exclusive + read) {  // a depend object: the address and a number for the kind
            const auto *object = static_cast<void *const *>(of[i]);
            const auto number_of_kind = reinterpret_cast<std::size_t>(object[1]);
            address = object[0];
            kind = number_of_kind == 1 ? "in" : number_of_kind == 4 || number_of_kind == 5 ? "inoutset" : "inout";
        }
        if (address) items.push_back({reinterpret_cast<std::uintptr_t>(address), kind});
    }
    return items;
}

// A copy of a task's data with our pointer behind them. The runtime copies it, so it may stay.
struct Data {
    int number;
    void *copy;
    long size;
    long alignment;
};
Data with_task(Task *task, Code code, void *data, Copier copier, long size, long alignment) {
    const std::size_t behind = rounded(size), boundary = alignment < 16 ? 16 : alignment;
    const std::size_t whole = (behind + sizeof(Task *) + boundary) / boundary * boundary;
    void *copy = std::aligned_alloc(boundary, whole);
    std::memcpy(copy, data, size);
    task_behind(copy, behind) = task;
    return {entries().number({code, copier, behind}), copy, static_cast<long>(behind + sizeof(Task *)),
            alignment < 8 ? 8 : alignment};
}

struct Parts {  // of a region
    Code code;
    void *data;
    Region *region;
};
void run_part(Code code, void *data, Region *region) {
    enter_part(region);
    {
        InRuntime no(false);
        code(data);
    }
    leave();
}
void run_parts(void *of) {
    const auto *parts = static_cast<Parts *>(of);
    run_part(parts->code, parts->data, parts->region);
}

// The runtime reads the data of a region with reductions itself, so these stay and say which region it is.
std::mutex &lock() { static auto *it = new std::mutex; return *it; }
std::map<void *, Parts> &reducing() { static auto *it = new std::map<void *, Parts>; return *it; }
void run_reducing(void *data) {
    Parts parts;
    {
        std::lock_guard<std::mutex> it(lock());
        parts = reducing()[data];
    }
    run_part(parts.code, data, parts.region);
}

}  // namespace

extern "C" {

void GOMP_task(Code code, void *data, Copier copier, long size, long alignment, bool is_deferred, unsigned flags,
               void **depend, int priority, void *detach) {
    REAL(GOMP_task);
    settle();
    auto *task = new Task;
    task->is_final = flags & FINAL;
    if (flags & DEPEND) task->items = items_of(depend);
    create(task, !is_deferred);
    const Data given = with_task(task, code, data, copier, size, alignment);
    InRuntime it;
    real_GOMP_task(before(given.number), given.copy, copier ? copied(given.number) : nullptr, given.size,
                   given.alignment, is_deferred, flags, depend, priority, detach);
}

// Of signed and unsigned turns.
#define TASKLOOP(name, turn)                                                                                          \
    void name(Code code, void *data, Copier copier, long size, long alignment, unsigned flags, unsigned long tasks,    \
              int priority, turn from, turn to, turn step) {                                                           \
        REAL(name);                                                                                                    \
        auto *loop = new Task;                                                                                         \
        loop->is_final = flags & FINAL;                                                                                \
        begin_loop(loop, !(flags & LOOP_NOGROUP), !(flags & LOOP_IF));                                                 \
        const Data given = with_task(loop, code, data, copier, size, alignment);                                       \
        {                                                                                                              \
            InRuntime it;                                                                                              \
            real_##name(before(given.number), given.copy, copier ? copied(given.number) : nullptr, given.size,         \
                        given.alignment, flags, tasks, priority, from, to, step);                                      \
        }                                                                                                              \
        if (!(flags & LOOP_NOGROUP)) ask(Step::EndGroup);                                                              \
    }
TASKLOOP(GOMP_taskloop, long)
TASKLOOP(GOMP_taskloop_ull, unsigned long long)

void GOMP_taskwait() {
    REAL(GOMP_taskwait);
    ask(Step::Wait);
    InRuntime it;
    real_GOMP_taskwait();
}

void GOMP_taskwait_depend(void **depend) {
    REAL(GOMP_taskwait_depend);
    ask_wait_for(items_of(depend));
    settle();
    InRuntime it;
    real_GOMP_taskwait_depend(depend);
}

void GOMP_taskgroup_start() {
    REAL(GOMP_taskgroup_start);
    ask(Step::BeginGroup);
    InRuntime it;
    real_GOMP_taskgroup_start();
}

void GOMP_taskgroup_end() {
    REAL(GOMP_taskgroup_end);
    ask(Step::EndGroup);
    InRuntime it;
    real_GOMP_taskgroup_end();
}

// A barrier, or the end of a loop or of sections, which has one.
#define BARRIER(answer, name)                                                                                          \
    answer name() {                                                                                                    \
        REAL(name);                                                                                                    \
        struct Passed { ~Passed() { pass_barrier(); } } passed;                                                        \
        settle();                                                                                                      \
        InRuntime it;                                                                                                  \
        return real_##name();                                                                                          \
    }
BARRIER(void, GOMP_barrier)
BARRIER(bool, GOMP_barrier_cancel)
BARRIER(void, GOMP_loop_end)
BARRIER(bool, GOMP_loop_end_cancel)
BARRIER(void, GOMP_sections_end)
BARRIER(bool, GOMP_sections_end_cancel)

void GOMP_parallel(Code code, void *data, unsigned threads, unsigned flags) {
    REAL(GOMP_parallel);
    Parts parts{code, data, new_region()};
    InRuntime it;
    real_GOMP_parallel(run_parts, &parts, threads, flags);
}

unsigned GOMP_parallel_reductions(Code code, void *data, unsigned threads, unsigned flags) {
    REAL(GOMP_parallel_reductions);
    {
        Region *region = new_region();
        std::lock_guard<std::mutex> it(lock());
        reducing()[data] = {code, data, region};
    }
    InRuntime it;
    return real_GOMP_parallel_reductions(run_reducing, data, threads, flags);
}

void GOMP_parallel_sections(Code code, void *data, unsigned threads, unsigned count, unsigned flags) {
    REAL(GOMP_parallel_sections);
    Parts parts{code, data, new_region()};
    InRuntime it;
    real_GOMP_parallel_sections(run_parts, &parts, threads, count, flags);
}

#define PARALLEL_LOOP(name)                                                                                            \
    void name(Code code, void *data, unsigned threads, long from, long to, long step, long chunk, unsigned flags) {    \
        REAL(name);                                                                                                    \
        Parts parts{code, data, new_region()};                                                                         \
        InRuntime it;                                                                                                  \
        real_##name(run_parts, &parts, threads, from, to, step, chunk, flags);                                         \
    }
PARALLEL_LOOP(GOMP_parallel_loop_static)
PARALLEL_LOOP(GOMP_parallel_loop_dynamic)
PARALLEL_LOOP(GOMP_parallel_loop_guided)
PARALLEL_LOOP(GOMP_parallel_loop_nonmonotonic_dynamic)
PARALLEL_LOOP(GOMP_parallel_loop_nonmonotonic_guided)

}  // extern "C"
