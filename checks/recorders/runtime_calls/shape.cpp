#include "shape.hpp"

#include <dlfcn.h>

#include <cstdio>
#include <cstdlib>
#include <map>
#include <mutex>
#include <string>

extern "C" int omp_get_num_threads(void);

namespace shape {
namespace {

// Nothing of this is destroyed: threads of the runtime may run until the process ends.
std::recursive_mutex &lock() { static auto *it = new std::recursive_mutex; return *it; }
using Locked = std::lock_guard<std::recursive_mutex>;
std::vector<Region *> &regions() { static auto *it = new std::vector<Region *>; return *it; }
Task &outside() { static auto *it = new Task; return *it; }
std::map<Task *, std::vector<Item>> &waits() { static auto *it = new std::map<Task *, std::vector<Item>>; return *it; }

struct Entered {
    Task *task;
    Region *region;  // of a part
};
thread_local std::vector<Entered> *entered;
thread_local bool is_inside;

std::vector<Entered> &stack() {
    if (!entered) entered = new std::vector<Entered>;
    return *entered;
}
Task *current() { return stack().empty() ? &outside() : stack().back().task; }

// It defers no task in a team of one thread; gcc's runtime does.
bool is_llvm() {
    static const bool it = dlsym(RTLD_NEXT, "__kmpc_fork_call");
    return it;
}

Task *new_part(Region *region, int phase) {
    auto *task = new Task;
    task->phase = phase;
    Locked it(lock());
    region->parts.push_back(task);
    return task;
}

bool has_tasks(const Task &task) {
    for (const Asked &one : task.asked)
        if (one.step == Step::Create && (!one.created->is_loop || has_tasks(*one.created))) return true;
    return false;
}

void write_body(FILE *file, const Task &task);

void write_task(FILE *file, const Task &task) {
    if (task.is_loop) {
        for (const Asked &one : task.asked)
            if (one.step == Step::Create) write_task(file, *one.created);
        return;
    }
    std::fprintf(file, "task%s", task.is_undeferred ? " if(0)" : "");
    for (const Item &item : task.items)
        std::fprintf(file, " depend(%s: at_%lx)", item.kind, static_cast<unsigned long>(item.address));
    std::fprintf(file, " {\n");
    write_body(file, task);
    std::fprintf(file, "}\n");
}

void write_body(FILE *file, const Task &task) {
    for (const Asked &one : task.asked) switch (one.step) {
        case Step::Create: write_task(file, *one.created); break;
        case Step::Wait: std::fprintf(file, "taskwait\n"); break;
        case Step::BeginGroup: std::fprintf(file, "taskgroup {\n"); break;
        case Step::EndGroup: std::fprintf(file, "}\n"); break;
    }
}

void write_region(FILE *file, const Region &region) {
    bool has_any = false;
    for (const Task *part : region.parts) has_any = has_any || has_tasks(*part);
    if (!has_any) return;
    std::fprintf(file, "region\n");
    for (const Task *part : region.parts) {
        if (!has_tasks(*part)) continue;
        std::fprintf(file, "part %d\n", part->phase);
        write_body(file, *part);
    }
}

// RUNTIME_CALLS names the file.
__attribute__((destructor)) void write_all() {
    const char *name = std::getenv("RUNTIME_CALLS");
    FILE *file = name ? std::fopen(name, "w") : nullptr;
    if (!file) return;
    Locked it(lock());
    for (const Region *region : regions()) write_region(file, *region);
    std::fprintf(file, "outside\n");
    write_body(file, outside());
    std::fclose(file);
}

}  // namespace

InRuntime::InRuntime(bool is_inside_now) : was(is_inside) { is_inside = is_inside_now; }
InRuntime::~InRuntime() { is_inside = was; }
bool is_in_runtime() { return is_inside; }

Region *new_region() {
    auto *region = new Region;
    Locked it(lock());
    regions().push_back(region);
    return region;
}

void enter_part(Region *region) { stack().push_back({new_part(region, 0), region}); }

void pass_barrier() {
    settle();
    if (stack().empty() || !stack().back().region) return;
    Entered &last = stack().back();
    last.task = new_part(last.region, last.task->phase + 1);
}

void enter(Task *task) {
    task->has_begun = true;
    stack().push_back({task, nullptr});
}

void leave() {
    settle();
    if (!stack().empty()) stack().pop_back();
}

void ask(Step step) {
    if (is_inside) return;
    settle();
    Locked it(lock());
    current()->asked.push_back({step, nullptr});
}

void ask_wait_for(std::vector<Item> items) {
    if (is_inside) return;
    settle();
    Locked it(lock());
    waits()[current()] = std::move(items);
}

std::vector<Item> awaited() {
    Locked it(lock());
    const auto found = waits().find(current());
    if (found == waits().end()) return {};
    std::vector<Item> items = std::move(found->second);
    waits().erase(found);
    return items;
}

void settle() {
    Locked it(lock());
    if (!waits().count(current())) return;
    auto *empty = new Task;
    empty->items = awaited();
    empty->is_undeferred = true;
    current()->asked.push_back({Step::Create, empty});
}

void create(Task *task, bool is_undeferred) {
    Locked it(lock());
    Task *parent = current();
    const bool is_alone = parent != &outside() && omp_get_num_threads() == 1 && is_llvm();
    task->is_undeferred = is_undeferred || parent->is_final || is_alone;
    task->is_final = task->is_final || parent->is_final;
    task->is_told = true;
    parent->asked.push_back({Step::Create, task});
}

Task *begin_turns(Task *loop) {
    auto *turns = new Task;
    Locked it(lock());
    turns->is_final = loop->is_final;
    turns->is_undeferred = loop->is_undeferred;
    loop->asked.push_back({Step::Create, turns});
    return turns;
}

void begin_loop(Task *loop, bool has_group, bool is_undeferred) {
    if (has_group) ask(Step::BeginGroup);
    else settle();
    loop->is_loop = true;
    create(loop, is_undeferred);
}

}  // namespace shape
