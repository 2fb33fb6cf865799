// The calls of LLVM's runtime that clang writes into a program, each told to `shape` and passed on.
#include <cstdarg>
#include <cstdint>

#include "entries.hpp"
#include "shape.hpp"

using namespace shape;

namespace {

struct TaskBlock {  // as the runtime allocates it; private data follow
    void *shareds;
    int (*routine)(int, void *);
};
using Routine = int (*)(int, void *);

struct Entry {
    Routine routine;
    std::size_t size;  // of the block; our pointer to the task stands behind it
    bool operator==(const Entry &other) const { return routine == other.routine && size == other.size; }
};
Entries<Entry> &entries() { static auto *it = new Entries<Entry>; return *it; }

Task *&task_behind(void *block, std::size_t size) {
    return *reinterpret_cast<Task **>(static_cast<char *>(block) + size);
}

template <int N>
struct Before {
    static int before(int thread, void *block) {
        const Entry &entry = entries()[N];
        Task *&behind = task_behind(block, entry.size);
        if (behind->is_loop) behind = begin_turns(behind);
        enter(behind);
        const int answer = entry.routine(thread, block);
        leave();
        return answer;
    }
};
const std::array<Routine, MOST_ENTRIES> &before() {
    static const auto *all = new auto(every_before<Routine, Before>(std::make_integer_sequence<int, MOST_ENTRIES>{}));
    return *all;
}

// None, where the runtime made the block by itself.
Task *task_of(void *block) {
    const Routine routine = static_cast<TaskBlock *>(block)->routine;
    for (int i = 0; i < entries().size(); i++)
        if (before()[i] == routine) return task_behind(block, entries()[i].size);
    return nullptr;
}

struct Dependence {
    std::intptr_t address;
    std::size_t length;
    unsigned char flags;  // 1 in, 2 or 3 out and inout, 4 mutexinoutset, 8 inoutset, 128 all memory
};

void add(std::vector<Item> &items, int count, const Dependence *of) {
    for (int i = 0; i < count; i++) {
        if (!of[i].address || of[i].flags & 128) continue;
        const int kind = of[i].flags & 15;
        items.push_back({static_cast<std::uintptr_t>(of[i].address),
                         kind == 1 ? "in" : kind == 4 || kind == 8 ? "inoutset" : "inout"});
    }
}
std::vector<Item> items_of(int count, const Dependence *of, int more, const Dependence *of_more) {
    std::vector<Item> items;
    add(items, count, of);
    add(items, more, of_more);
    return items;
}

std::size_t with_task(std::size_t size) { return rounded(size) + sizeof(Task *); }

// A block for a new task, as the runtime made it.
void *begun(void *block, int flags, std::size_t size, Routine routine) {
    settle();
    auto *task = new Task;
    task->is_final = flags & 2;
    task_behind(block, rounded(size)) = task;
    static_cast<TaskBlock *>(block)->routine = before()[entries().number({routine, rounded(size)})];
    return block;
}

void tell_created(void *block, std::vector<Item> items) {
    Task *task = task_of(block);
    if (!task || task->has_begun || task->is_told) return;
    task->items = std::move(items);
    create(task, false);
}

void tell_loop(void *block, int is_deferred, int has_no_group) {
    if (Task *loop = task_of(block)) begin_loop(loop, !has_no_group, !is_deferred);
}

using Microtask = void (*)(int *, int *, ...);
constexpr int MOST_SHARED = 20;  // variables that a region's code is handed
struct Fork {
    Microtask code;
    Region *region;
};
#define SHARED(type) type a1, type a2, type a3, type a4, type a5, type a6, type a7, type a8, type a9, type a10, \
    type a11, type a12, type a13, type a14, type a15, type a16, type a17, type a18, type a19, type a20
#define THE_SHARED a1, a2, a3, a4, a5, a6, a7, a8, a9, a10, a11, a12, a13, a14, a15, a16, a17, a18, a19, a20
void run_part(int *thread, int *bound, Fork *fork, SHARED(void *)) {
    enter_part(fork->region);
    reinterpret_cast<void (*)(int *, int *, SHARED(void *))>(fork->code)(thread, bound, THE_SHARED);
    leave();
}

}  // namespace

extern "C" {

void *__kmpc_omp_task_alloc(void *place, int thread, int flags, std::size_t size, std::size_t shareds, Routine routine) {
    REAL(__kmpc_omp_task_alloc);
    if (is_in_runtime()) return real___kmpc_omp_task_alloc(place, thread, flags, size, shareds, routine);
    void *block = real___kmpc_omp_task_alloc(place, thread, flags, with_task(size), shareds, routine);
    return begun(block, flags, size, routine);
}

void *__kmpc_omp_target_task_alloc(void *place, int thread, int flags, std::size_t size, std::size_t shareds,
                                   Routine routine, std::int64_t device) {
    REAL(__kmpc_omp_target_task_alloc);
    const InRuntime it;
    void *block = real___kmpc_omp_target_task_alloc(place, thread, flags, with_task(size), shareds, routine, device);
    return begun(block, flags, size, routine);
}

int __kmpc_omp_task(void *place, int thread, void *block) {
    REAL(__kmpc_omp_task);
    tell_created(block, {});
    return real___kmpc_omp_task(place, thread, block);
}

int __kmpc_omp_task_with_deps(void *place, int thread, void *block, int count, Dependence *of, int more,
                              Dependence *of_more) {
    REAL(__kmpc_omp_task_with_deps);
    tell_created(block, items_of(count, of, more, of_more));
    return real___kmpc_omp_task_with_deps(place, thread, block, count, of, more, of_more);
}

void __kmpc_omp_wait_deps(void *place, int thread, int count, Dependence *of, int more, Dependence *of_more) {
    REAL(__kmpc_omp_wait_deps);
    ask_wait_for(items_of(count, of, more, of_more));
    real___kmpc_omp_wait_deps(place, thread, count, of, more, of_more);
}

void __kmpc_omp_taskwait_deps_51(void *place, int thread, int count, Dependence *of, int more, Dependence *of_more,
                                 int has_no_wait) {
    REAL(__kmpc_omp_taskwait_deps_51);
    ask_wait_for(items_of(count, of, more, of_more));
    real___kmpc_omp_taskwait_deps_51(place, thread, count, of, more, of_more, has_no_wait);
}

void __kmpc_omp_task_begin_if0(void *place, int thread, void *block) {
    REAL(__kmpc_omp_task_begin_if0);
    Task *task = task_of(block);
    if (task && !task->is_told) {
        task->items = awaited();
        create(task, true);
    }
    real___kmpc_omp_task_begin_if0(place, thread, block);
    if (task) enter(task);
}

void __kmpc_omp_task_complete_if0(void *place, int thread, void *block) {
    REAL(__kmpc_omp_task_complete_if0);
    if (task_of(block)) leave();
    real___kmpc_omp_task_complete_if0(place, thread, block);
}

int __kmpc_omp_taskwait(void *place, int thread) {
    REAL(__kmpc_omp_taskwait);
    ask(Step::Wait);
    return real___kmpc_omp_taskwait(place, thread);
}

void __kmpc_taskgroup(void *place, int thread) {
    REAL(__kmpc_taskgroup);
    ask(Step::BeginGroup);
    real___kmpc_taskgroup(place, thread);
}

void __kmpc_end_taskgroup(void *place, int thread) {
    REAL(__kmpc_end_taskgroup);
    ask(Step::EndGroup);
    real___kmpc_end_taskgroup(place, thread);
}

void __kmpc_taskloop(void *place, int thread, void *block, int is_deferred, std::uint64_t *from, std::uint64_t *to,
                     std::int64_t step, int has_no_group, int schedule, std::uint64_t grain, void *copier) {
    REAL(__kmpc_taskloop);
    tell_loop(block, is_deferred, has_no_group);
    real___kmpc_taskloop(place, thread, block, is_deferred, from, to, step, has_no_group, schedule, grain, copier);
    if (!has_no_group) ask(Step::EndGroup);
}

void __kmpc_taskloop_5(void *place, int thread, void *block, int is_deferred, std::uint64_t *from, std::uint64_t *to,
                       std::int64_t step, int has_no_group, int schedule, std::uint64_t grain, int modifier,
                       void *copier) {
    REAL(__kmpc_taskloop_5);
    tell_loop(block, is_deferred, has_no_group);
    real___kmpc_taskloop_5(place, thread, block, is_deferred, from, to, step, has_no_group, schedule, grain, modifier,
                           copier);
    if (!has_no_group) ask(Step::EndGroup);
}

void __kmpc_barrier(void *place, int thread) {
    REAL(__kmpc_barrier);
    settle();
    real___kmpc_barrier(place, thread);
    if (!is_in_runtime()) pass_barrier();
}

int __kmpc_cancel_barrier(void *place, int thread) {
    REAL(__kmpc_cancel_barrier);
    settle();
    const int is_cancelled = real___kmpc_cancel_barrier(place, thread);
    if (!is_in_runtime()) pass_barrier();
    return is_cancelled;
}

void __kmpc_fork_call(void *place, int count, Microtask code, ...) {
    using Call = void (*)(void *, int, void *, ...);
    static const auto next = reinterpret_cast<Call>(dlsym(RTLD_NEXT, "__kmpc_fork_call"));
    if (count > MOST_SHARED) std::abort();
    void *shared[MOST_SHARED] = {};
    std::va_list rest;
    va_start(rest, code);
    for (int i = 0; i < count; i++) shared[i] = va_arg(rest, void *);
    va_end(rest);
    Fork fork{code, new_region()};
    next(place, count + 1, reinterpret_cast<void *>(run_part), &fork, shared[0], shared[1], shared[2], shared[3],
         shared[4], shared[5], shared[6], shared[7], shared[8], shared[9], shared[10], shared[11], shared[12], shared[13],
         shared[14], shared[15], shared[16], shared[17], shared[18], shared[19]);
}

// A region of one thread, whose code the program runs by itself.
void __kmpc_serialized_parallel(void *place, int thread) {
    REAL(__kmpc_serialized_parallel);
    real___kmpc_serialized_parallel(place, thread);
    if (!is_in_runtime()) enter_part(new_region());
}

void __kmpc_end_serialized_parallel(void *place, int thread) {
    REAL(__kmpc_end_serialized_parallel);
    if (!is_in_runtime()) leave();
    real___kmpc_end_serialized_parallel(place, thread);
}

}  // extern "C"
