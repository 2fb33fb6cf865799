#include "clocks.hpp"

#include <errno.h>
#include <fcntl.h>
#include <sys/resource.h>
#include <sys/syscall.h>
#include <unistd.h>

#include <algorithm>
#include <cstdlib>
#include <utility>

namespace {
// Nanoseconds off the processor: to read how long it was put off takes 3,000.
constexpr int64_t worth_reading = 2000000;

// How long the thread could have run, and others did, so far; -1 where the kernel does not report it. The calls are
// made directly, since functions of these names may be this library's, and end a thread that is cancelled.
int64_t put_off_so_far() {
  int before = errno;
  char line[64] = "";
  long file = syscall(SYS_openat, AT_FDCWD, "/proc/thread-self/schedstat", O_RDONLY | O_CLOEXEC, 0);
  if (file >= 0) {
    syscall(SYS_read, file, line, sizeof line - 1);
    syscall(SYS_close, file);
  }
  errno = before;
  char *behind = line;
  std::strtoll(line, &behind, 10);  // how long it ran
  return behind == line ? -1 : std::strtoll(behind, nullptr, 10);
}
}  // namespace

int64_t read_clock(clockid_t id) {
  timespec t;
  clock_gettime(id, &t);
  return int64_t{t.tv_sec} * 1000000000 + t.tv_nsec;
}

Look look_now() {
  Look now{{wall_time(), processor_time()}};
  rusage use;
  if (!getrusage(RUSAGE_THREAD, &use)) now.given_up = use.ru_nvcsw, now.taken = use.ru_nivcsw;
  now.put_off = put_off_so_far();
  return now;
}

Passed passed_between(const Look &first, const Look &last) {
  Passed since{last.given_up != first.given_up, last.at.wall - first.at.wall, last.at.processor - first.at.processor,
               last.taken != first.taken};
  since.put_off = last.put_off < 0 ? since.off() : std::clamp(last.put_off - first.put_off, int64_t{0}, since.off());
  return since;
}

void BothClocks::begin_at(const Look &first) {
  last = at = first.at;
  before_wait = {};
  given_up = first.given_up;
  taken = first.taken;
  put_off = first.put_off;
}

// By the processor's clock both are read at each call: what passed before the last of them is left out where the way
// from there is far by itself.
bool BothClocks::is_far(const Times &now) {
  Times before = std::exchange(at, now);
  if (at.wall - last.wall < apart) return false;
  if (!by_processor) at.processor = processor_time();
  else if (at.wall - before.wall >= apart) last = before;
  return true;
}

int64_t BothClocks::off_since_look() const {
  return Passed{false, wall_time() - last.wall, processor_time() - last.processor}.off();
}

// Counted at each look where there may have been one, so that a switch before the last one is none since.
void BothClocks::count_switches(Passed &since) {
  rusage use;
  if (getrusage(RUSAGE_THREAD, &use)) return;
  since.slept = use.ru_nvcsw != std::exchange(given_up, use.ru_nvcsw);
  since.taken = use.ru_nivcsw != std::exchange(taken, use.ru_nivcsw);
  since.put_off = since.off();
  if (since.put_off < worth_reading) return;
  // What passed where it was not read is in it too.
  if (int64_t now = put_off_so_far(); now >= 0)
    since.put_off = std::clamp(now - std::exchange(put_off, now), int64_t{0}, since.put_off);
}

std::optional<Passed> BothClocks::at_record(const Times &now) {
  if (!is_far(now)) return {};
  Passed since{false, at.wall - last.wall + before_wait.wall, at.processor - last.processor + before_wait.processor};
  if (since.is_off()) count_switches(since);
  bool is_first = !last.wall;
  last = at;
  before_wait = {};
  return is_first ? std::nullopt : std::optional(since);
}

void BothClocks::wait_begins(const Times &now) {
  if (!is_far(now)) return;
  if (last.wall) {
    before_wait.wall += at.wall - last.wall;
    before_wait.processor += at.processor - last.processor;
  }
  last = at;
}

void BothClocks::forget_switches() {
  Passed before;
  count_switches(before);
}

void BothClocks::wait_ends(const Times &now) {
  if (!is_far(now)) return;
  forget_switches();
  last = at;
}
