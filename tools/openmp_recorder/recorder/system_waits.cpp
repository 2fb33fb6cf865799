// The system's functions that programs sleep in. Each is passed on as it was called, and looks at the time before and
// behind; what is written then takes no lock and no memory, and keeps errno. A thread without samples is passed on.
#include "system_waits.hpp"

#include <linux/futex.h>
#include <poll.h>
#include <pthread.h>
#include <semaphore.h>
#include <stdio.h>
#include <sys/epoll.h>
#include <sys/file.h>
#include <sys/resource.h>
#include <sys/select.h>
#include <sys/socket.h>
#include <sys/syscall.h>
#include <sys/uio.h>
#include <sys/wait.h>
#include <time.h>
#include <unistd.h>

#include "callers.hpp"
#include "log_head.hpp"
#include "samples.hpp"
#include "systems.hpp"
#include "ticks.hpp"

namespace {
// One call: until it returns, or is left by an exception or the thread's end.
// No log and no callback in this class: these functions are called in handlers, with any lock held, and before the
// recorder has begun. So only `put_wait`, which is made for that.
class Waiting {
 public:
  Waiting(const void *called, const void *by) : function(called), place(by), samples(own_samples) {
    if (samples) began = is_stamp ? read_time_stamp(After::Itself) : static_cast<uint64_t>(wall_time());
  }
  ~Waiting() {
    if (samples && took() >= static_cast<double>(least_wait)) record();
  }
  Waiting(const Waiting &) = delete;

 private:
  const void *function, *place;
  Samples *samples;
  // The recorder may begin during the call, on another thread, and from then on reads the other counter.
  bool is_stamp = by_time_stamp;
  uint64_t began = 0;
  double took() const {
    if (!is_stamp) return static_cast<double>(static_cast<uint64_t>(wall_time()) - began);
    return static_cast<double>(read_time_stamp(After::Itself) - began) * nanoseconds_of_tick();
  }
  // The thread may have lost its samples during the call, as in the child of a fork.
  __attribute__((noinline)) void record() const {
    if (!in_runtime(place) && samples == own_samples) samples->put_wait(function, static_cast<int64_t>(took()));
  }
};
}  // namespace

// Each function is passed on exactly once, with its arguments as they are. `put_wait` restores errno after it, and a
// thread that is cancelled inside still runs the destructor, which takes no lock.
#define WAITS_BY(version, before, result, name, parameters, ...)                            \
  static Systems<result(*) parameters> systems_##name(#name, version);                      \
  FIND_AT_LOAD(systems_##name)                                                              \
  ENTRY result name parameters {                                                            \
    before;                                                                                 \
    auto function = systems_##name.get();                                                   \
    Waiting waiting(reinterpret_cast<const void *>(function), __builtin_return_address(0)); \
    return function(__VA_ARGS__);                                                           \
  }
#define WAITS(result, name, parameters, ...) WAITS_BY(nullptr, , result, name, parameters, __VA_ARGS__)

WAITS(ssize_t, read, (int file, void *bytes, size_t count), file, bytes, count)
WAITS(ssize_t, write, (int file, const void *bytes, size_t count), file, bytes, count)
WAITS(ssize_t, pread, (int file, void *bytes, size_t count, off_t at), file, bytes, count, at)
WAITS(ssize_t, pwrite, (int file, const void *bytes, size_t count, off_t at), file, bytes, count, at)
WAITS(ssize_t, readv, (int file, const iovec *parts, int count), file, parts, count)
WAITS(ssize_t, writev, (int file, const iovec *parts, int count), file, parts, count)
WAITS(int, fsync, (int file), file)
WAITS(int, fdatasync, (int file), file)
WAITS(size_t, fread, (void *bytes, size_t size, size_t count, FILE *file), bytes, size, count, file)
WAITS(size_t, fwrite, (const void *bytes, size_t size, size_t count, FILE *file), bytes, size, count, file)
WAITS(char *, fgets, (char *line, int size, FILE *file), line, size, file)
WAITS(ssize_t, __getdelim, (char **line, size_t *size, int end, FILE *file), line, size, end, file)
WAITS(int, fflush, (FILE * file), file)
WAITS(ssize_t, recv, (int socket, void *bytes, size_t count, int flags), socket, bytes, count, flags)
WAITS(ssize_t, send, (int socket, const void *bytes, size_t count, int flags), socket, bytes, count, flags)
WAITS(ssize_t, recvfrom, (int socket, void *bytes, size_t count, int flags, sockaddr *from, socklen_t *length), socket,
      bytes, count, flags, from, length)
WAITS(ssize_t, recvmsg, (int socket, msghdr *message, int flags), socket, message, flags)
WAITS(ssize_t, sendmsg, (int socket, const msghdr *message, int flags), socket, message, flags)
WAITS(int, accept, (int socket, sockaddr *from, socklen_t *length), socket, from, length)
WAITS(int, connect, (int socket, const sockaddr *to, socklen_t length), socket, to, length)
WAITS(int, nanosleep, (const timespec *time, timespec *left), time, left)
WAITS(int, clock_nanosleep, (clockid_t clock, int flags, const timespec *time, timespec *left), clock, flags, time,
      left)
WAITS(int, usleep, (useconds_t time), time)
WAITS(unsigned, sleep, (unsigned time), time)
WAITS(int, poll, (pollfd * files, nfds_t count, int time), files, count, time)
WAITS(int, select, (int count, fd_set *in, fd_set *out, fd_set *other, timeval *time), count, in, out, other, time)
WAITS(int, ppoll, (pollfd * files, nfds_t count, const timespec *time, const sigset_t *mask), files, count, time, mask)
WAITS(int, pselect, (int count, fd_set *in, fd_set *out, fd_set *other, const timespec *time, const sigset_t *mask),
      count, in, out, other, time, mask)
WAITS(int, epoll_wait, (int files, epoll_event *events, int count, int time), files, events, count, time)
WAITS(pid_t, wait, (int *status), status)
WAITS(int, waitid, (idtype_t kind, id_t process, siginfo_t *status, int flags), kind, process, status, flags)
WAITS(pid_t, waitpid, (pid_t process, int *status, int flags), process, status, flags)
WAITS(pid_t, wait4, (pid_t process, int *status, int flags, rusage *use), process, status, flags, use)
WAITS(int, system, (const char *command), command)
WAITS(int, pthread_join, (pthread_t thread, void **value), thread, value)
WAITS(int, pthread_barrier_wait, (pthread_barrier_t * barrier), barrier)
WAITS(int, sem_wait, (sem_t * semaphore), semaphore)
WAITS(int, sem_timedwait, (sem_t * semaphore, const timespec *until), semaphore, until)
WAITS(int, sem_clockwait, (sem_t * semaphore, clockid_t clock, const timespec *until), semaphore, clock, until)
WAITS(int, flock, (int file, int how), file, how)
WAITS(int, pthread_mutex_timedlock, (pthread_mutex_t * mutex, const timespec *until), mutex, until)
WAITS(int, pthread_rwlock_timedrdlock, (pthread_rwlock_t * lock, const timespec *until), lock, until)
WAITS(int, pthread_rwlock_timedwrlock, (pthread_rwlock_t * lock, const timespec *until), lock, until)
WAITS(int, pthread_mutex_clocklock, (pthread_mutex_t * mutex, clockid_t clock, const timespec *until), mutex, clock,
      until)

// The system has older functions of these names, for programs of before 2003.
#define WAITS_WITH_LOCK(name, parameters, ...) \
  WAITS_BY("GLIBC_2.3.2", leave_for_wait(mutex), int, name, parameters, __VA_ARGS__)
WAITS_WITH_LOCK(pthread_cond_wait, (pthread_cond_t * condition, pthread_mutex_t *mutex), condition, mutex)
WAITS_WITH_LOCK(pthread_cond_timedwait, (pthread_cond_t * condition, pthread_mutex_t *mutex, const timespec *until),
                condition, mutex, until)
WAITS_BY(nullptr, leave_for_wait(mutex), int, pthread_cond_clockwait,
         (pthread_cond_t * condition, pthread_mutex_t *mutex, clockid_t clock, const timespec *until), condition, mutex,
         clock, until)

// As the C++ library waits for futures. The function has as many arguments as any call: those not given are not read.
// Of all numbers only futex is looked at; the others are passed on unseen.
#define NUMBERS long number, long a, long b, long c, long d, long e, long f
static Systems<long (*)(NUMBERS)> systems_syscall("syscall");
FIND_AT_LOAD(systems_syscall)
// Of another name here, since unistd.h declares `syscall` with `...`.
ENTRY long any_call(NUMBERS) asm("syscall");
ENTRY long any_call(NUMBERS) {
  auto function = systems_syscall.get();
  long what = b & FUTEX_CMD_MASK;
  if (number != SYS_futex || (what != FUTEX_WAIT && what != FUTEX_WAIT_BITSET))
    return function(number, a, b, c, d, e, f);
  Waiting waiting(reinterpret_cast<const void *>(function), __builtin_return_address(0));
  return function(number, a, b, c, d, e, f);
}
