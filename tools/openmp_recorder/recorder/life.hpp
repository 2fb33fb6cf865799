// From the beginning of a run to its end, however it ends.
#pragma once
#include <cstdint>

// Both on the first thread that meets the runtime, and before any record; a second call does nothing.
void runtime_begins();  // before `begin_recording`, which the runtime comes to later
// With a call of the recorder that makes a record and nothing else, and what it does not see (log_form.hpp).
void begin_recording(void (*call)(), uint32_t unseen);
void report_unseen(uint32_t more);  // found later: any thread
void expect_end_by_this_thread();  // by `exit`, beside others perhaps
// Any thread may call it, several times and at once: the first one writes the end. Only after `begin_recording`.
void end_recording();  // the log has when, once
void note_usage_at_exit();  // by `_exit`, in a handler perhaps: the log has no end then
