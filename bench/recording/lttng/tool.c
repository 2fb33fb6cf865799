// A tool that hands each creation, beginning and end of a task, and each wait, to LTTng-UST as an event: what a tracer
// for all programs takes for the events that the recorder keeps.
#define LTTNG_UST_TRACEPOINT_CREATE_PROBES
#define LTTNG_UST_TRACEPOINT_DEFINE
#include "events.h"
#include <omp-tools.h>
#include <stddef.h>

static __thread uint64_t number;    // of the thread's last task, with the thread in its upper bits
static uint64_t threads;

static uint64_t next_task(void) {
    if (!number) number = __atomic_add_fetch(&threads, 1, __ATOMIC_RELAXED) << 40;
    return ++number;
}

static void on_parallel_begin(ompt_data_t *meeting, const ompt_frame_t *frame, ompt_data_t *region, unsigned count,
                              int flags, const void *code) {}
static void on_parallel_end(ompt_data_t *region, ompt_data_t *meeting, int flags, const void *code) {}

static void on_implicit_task(ompt_scope_endpoint_t end, ompt_data_t *region, ompt_data_t *task, unsigned count,
                             unsigned index, int flags) {
    if (end == ompt_scope_begin) task->value = next_task();
}

static void on_create(ompt_data_t *meeting, const ompt_frame_t *frame, ompt_data_t *task, int flags, int depends,
                      const void *code) {
    task->value = next_task();
    lttng_ust_tracepoint(tasks, create, meeting ? meeting->value : 0, task->value, code);
}

static void on_schedule(ompt_data_t *prior, ompt_task_status_t status, ompt_data_t *next) {
    lttng_ust_tracepoint(tasks, schedule, prior ? prior->value : 0, status, next ? next->value : 0);
}

static void on_sync(ompt_sync_region_t kind, ompt_scope_endpoint_t end, ompt_data_t *region, ompt_data_t *task,
                    const void *code) {
    lttng_ust_tracepoint(tasks, wait, task ? task->value : 0, end, code);
}

static int initialize(ompt_function_lookup_t lookup, int device, ompt_data_t *data) {
    ompt_set_callback_t set = (ompt_set_callback_t)lookup("ompt_set_callback");
    set(ompt_callback_parallel_begin, (ompt_callback_t)on_parallel_begin);
    set(ompt_callback_parallel_end, (ompt_callback_t)on_parallel_end);
    set(ompt_callback_implicit_task, (ompt_callback_t)on_implicit_task);
    set(ompt_callback_task_create, (ompt_callback_t)on_create);
    set(ompt_callback_task_schedule, (ompt_callback_t)on_schedule);
    set(ompt_callback_sync_region, (ompt_callback_t)on_sync);
    return 1;
}

static void finalize(ompt_data_t *data) {}

ompt_start_tool_result_t *ompt_start_tool(unsigned version, const char *runtime) {
    static ompt_start_tool_result_t result = {initialize, finalize, {0}};
    return &result;
}
