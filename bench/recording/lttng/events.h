// The events of tool.c, in the form of LTTng-UST.
#undef LTTNG_UST_TRACEPOINT_PROVIDER
#define LTTNG_UST_TRACEPOINT_PROVIDER tasks
#undef LTTNG_UST_TRACEPOINT_INCLUDE
#define LTTNG_UST_TRACEPOINT_INCLUDE "./events.h"

#if !defined(LTTNG_EVENTS_H) || defined(LTTNG_UST_TRACEPOINT_HEADER_MULTI_READ)
#define LTTNG_EVENTS_H
#include <lttng/tracepoint.h>
#include <stdint.h>

LTTNG_UST_TRACEPOINT_EVENT(tasks, create, LTTNG_UST_TP_ARGS(uint64_t, parent, uint64_t, task, const void *, code),
                           LTTNG_UST_TP_FIELDS(lttng_ust_field_integer(uint64_t, parent, parent)
                                                   lttng_ust_field_integer(uint64_t, task, task)
                                                       lttng_ust_field_integer_hex(uintptr_t, code, (uintptr_t)code)))
LTTNG_UST_TRACEPOINT_EVENT(tasks, schedule, LTTNG_UST_TP_ARGS(uint64_t, prior, int, status, uint64_t, next),
                           LTTNG_UST_TP_FIELDS(lttng_ust_field_integer(uint64_t, prior, prior)
                                                   lttng_ust_field_integer(int, status, status)
                                                       lttng_ust_field_integer(uint64_t, next, next)))
LTTNG_UST_TRACEPOINT_EVENT(tasks, wait, LTTNG_UST_TP_ARGS(uint64_t, task, int, end, const void *, code),
                           LTTNG_UST_TP_FIELDS(lttng_ust_field_integer(uint64_t, task, task)
                                                   lttng_ust_field_integer(int, end, end)
                                                       lttng_ust_field_integer_hex(uintptr_t, code, (uintptr_t)code)))
#endif
#include <lttng/tracepoint-event.h>
