// calls LIBRARY TASKS [REGIONS]: loads a tool as a runtime of OpenMP does, and makes the calls of so many tasks in each of
// one region or more, on one thread: a creation, a beginning and an end each, and for every other task a wait. Prints the
// processor time of a task in nanoseconds, which says what the tool itself takes, also on a machine that does other things.
#include <dlfcn.h>
#include <omp-tools.h>
#include <stdio.h>
#include <stdlib.h>
#include <string.h>
#include <time.h>

static ompt_callback_t calls[64];

static ompt_set_result_t set_callback(ompt_callbacks_t which, ompt_callback_t call) {
    calls[which] = call;
    return ompt_set_always;
}

static ompt_interface_fn_t look_up(const char *name) {
    return strcmp(name, "ompt_set_callback") ? 0 : (ompt_interface_fn_t)set_callback;
}

static double processor_time(void) {
    struct timespec t;
    clock_gettime(CLOCK_THREAD_CPUTIME_ID, &t);
    return t.tv_sec * 1e9 + t.tv_nsec;
}

static const void *code;  // of all constructs: outside of this program, which stands for the runtime
static ompt_data_t region, root, initial;

static void implicit_task(ompt_scope_endpoint_t endpoint, ompt_data_t *of, ompt_data_t *task, int flags) {
    ((ompt_callback_implicit_task_t)calls[ompt_callback_implicit_task])(endpoint, of, task, 1, 0, flags);
}

static void begin_region(void) {
    ((ompt_callback_parallel_begin_t)calls[ompt_callback_parallel_begin])(&initial, 0, &region, 2, 0, exit);
    root.value = 0;
    implicit_task(ompt_scope_begin, &region, &root, ompt_task_implicit);
}

static void end_region(void) {
    ((ompt_callback_sync_region_t)calls[ompt_callback_sync_region])(ompt_sync_region_barrier_implicit_parallel,
                                                                    ompt_scope_begin, &region, &root, code);
    implicit_task(ompt_scope_end, 0, &root, ompt_task_implicit);
    ((ompt_callback_parallel_end_t)calls[ompt_callback_parallel_end])(&region, &initial, 0, code);
}

static void make_tasks(long count) {
    ompt_callback_task_create_t create = (ompt_callback_task_create_t)calls[ompt_callback_task_create];
    ompt_callback_task_schedule_t schedule = (ompt_callback_task_schedule_t)calls[ompt_callback_task_schedule];
    ompt_callback_sync_region_t sync = (ompt_callback_sync_region_t)calls[ompt_callback_sync_region];
    for (long i = 0; i < count; i++) {
        ompt_data_t task = {0};
        create(&root, 0, &task, ompt_task_explicit, 0, code);
        schedule(&root, ompt_task_switch, &task);
        if (i % 2) {
            sync(ompt_sync_region_taskwait, ompt_scope_begin, &region, &task, code);
            sync(ompt_sync_region_taskwait, ompt_scope_end, &region, &task, code);
        }
        schedule(&task, ompt_task_complete, &root);
    }
}

int main(int count, char **words) {
    void *library = count == 3 || count == 4 ? dlopen(words[1], RTLD_NOW) : 0;
    typedef ompt_start_tool_result_t *start_tool(unsigned, const char *);
    start_tool *start = library ? (start_tool *)dlsym(library, "ompt_start_tool") : 0;
    ompt_start_tool_result_t *tool = start ? start(201811, "calls") : 0;
    if (!tool) return fprintf(stderr, "usage: calls LIBRARY TASKS [REGIONS]\n"), 2;
    tool->initialize(look_up, 0, &tool->tool_data);
    code = (const void *)printf;
    implicit_task(ompt_scope_begin, 0, &initial, ompt_task_initial);
    long tasks = atol(words[2]), regions = count == 4 ? atol(words[3]) : 1;
    double spent = 0;
    for (long i = 0; i < regions; i++) {
        begin_region();
        double began = processor_time();
        make_tasks(tasks);
        spent += processor_time() - began;
        end_region();
    }
    printf("%.1f\n", spent / tasks / regions);
    tool->finalize(&tool->tool_data);
    return 0;
}
