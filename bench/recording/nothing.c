// A tool that asks for the calls that the recorder asks for, and does nothing in them: what recording costs at least.
#include <omp-tools.h>
#include <stddef.h>

static void on_thread_begin(ompt_thread_t kind, ompt_data_t *data) {}
static void on_parallel_begin(ompt_data_t *meeting, const ompt_frame_t *frame, ompt_data_t *region, unsigned threads,
                              int flags, const void *code) {}
static void on_parallel_end(ompt_data_t *region, ompt_data_t *meeting, int flags, const void *code) {}
static void on_implicit_task(ompt_scope_endpoint_t end, ompt_data_t *region, ompt_data_t *task, unsigned threads,
                             unsigned number, int flags) {}
static void on_work(ompt_work_t kind, ompt_scope_endpoint_t end, ompt_data_t *region, ompt_data_t *task,
                    uint64_t count, const void *code) {}
static void on_create(ompt_data_t *meeting, const ompt_frame_t *frame, ompt_data_t *task, int flags, int depends,
                      const void *code) {}
static void on_dependences(ompt_data_t *task, const ompt_dependence_t *items, int count) {}
static void on_schedule(ompt_data_t *prior, ompt_task_status_t status, ompt_data_t *next) {}
static void on_sync(ompt_sync_region_t kind, ompt_scope_endpoint_t end, ompt_data_t *region, ompt_data_t *task,
                    const void *code) {}
static void on_cancel(ompt_data_t *task, int flags, const void *code) {}
static void on_lock_asked(ompt_mutex_t kind, unsigned hint, unsigned way, ompt_wait_id_t name, const void *code) {}
static void on_lock(ompt_mutex_t kind, ompt_wait_id_t name, const void *code) {}

static int initialize(ompt_function_lookup_t lookup, int device, ompt_data_t *data) {
    ompt_set_callback_t set = (ompt_set_callback_t)lookup("ompt_set_callback");
    set(ompt_callback_thread_begin, (ompt_callback_t)on_thread_begin);
    set(ompt_callback_parallel_begin, (ompt_callback_t)on_parallel_begin);
    set(ompt_callback_parallel_end, (ompt_callback_t)on_parallel_end);
    set(ompt_callback_implicit_task, (ompt_callback_t)on_implicit_task);
    set(ompt_callback_work, (ompt_callback_t)on_work);
    set(ompt_callback_task_create, (ompt_callback_t)on_create);
    set(ompt_callback_dependences, (ompt_callback_t)on_dependences);
    set(ompt_callback_task_schedule, (ompt_callback_t)on_schedule);
    set(ompt_callback_sync_region, (ompt_callback_t)on_sync);
    set(ompt_callback_sync_region_wait, (ompt_callback_t)on_sync);
    set(ompt_callback_cancel, (ompt_callback_t)on_cancel);
    set(ompt_callback_mutex_acquire, (ompt_callback_t)on_lock_asked);
    set(ompt_callback_mutex_acquired, (ompt_callback_t)on_lock);
    set(ompt_callback_mutex_released, (ompt_callback_t)on_lock);
    return 1;
}

static void finalize(ompt_data_t *data) {}

ompt_start_tool_result_t *ompt_start_tool(unsigned version, const char *runtime) {
    static ompt_start_tool_result_t result = {initialize, finalize, {0}};
    return &result;
}
