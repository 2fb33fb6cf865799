#include "process_usage.hpp"

#include <sys/resource.h>

namespace {
int64_t nanoseconds(const timeval &time) { return int64_t{time.tv_sec} * 1000000000 + time.tv_usec * int64_t{1000}; }
}  // namespace

log_form::Usage process_usage() {
  rusage own{}, children{};
  getrusage(RUSAGE_SELF, &own);
  getrusage(RUSAGE_CHILDREN, &children);
  int64_t of_children = nanoseconds(children.ru_utime) + nanoseconds(children.ru_stime);
  return {nanoseconds(own.ru_utime),
          nanoseconds(own.ru_stime),
          own.ru_minflt,
          own.ru_maxrss * int64_t{1024},
          own.ru_nvcsw,
          own.ru_nivcsw,
          of_children};
}
