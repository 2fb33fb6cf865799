// Locks of the system, which no runtime tells of: a wait for one is told as for a lock of OpenMP, and one that is free
// is not. Locks of the runtime and of the recorder itself are passed on, and so are those of a thread that has no log
// yet: no call here leads to another one.
#include <errno.h>
#include <pthread.h>

#include <algorithm>

#include "callbacks.hpp"
#include "callers.hpp"
#include "log_head.hpp"
#include "system_waits.hpp"
#include "systems.hpp"
#include "record_kind.hpp"

namespace {
#define SYSTEMS(name)                         \
  Systems<decltype(&name)> own_##name(#name); \
  FIND_AT_LOAD(own_##name)
SYSTEMS(pthread_mutex_lock)
SYSTEMS(pthread_mutex_trylock)
SYSTEMS(pthread_mutex_unlock)
SYSTEMS(pthread_rwlock_rdlock)
SYSTEMS(pthread_rwlock_tryrdlock)
SYSTEMS(pthread_rwlock_wrlock)
SYSTEMS(pthread_rwlock_trywrlock)
SYSTEMS(pthread_rwlock_unlock)

// Those that the thread waited for and holds, so that their end is told; beyond these it is not.
// Room that is there when the thread begins: without this model of storage the first access may allocate, inside a
// call for a lock. The loader has little of it for a library that is opened late, so keep it small.
struct Held {
  static constexpr unsigned most = 8;
  const void *locks[most];
  unsigned count;
};
__attribute__((tls_model("initial-exec"))) __thread Held held;

ompt_wait_id_t name_of(const void *lock) { return reinterpret_cast<ompt_wait_id_t>(lock); }

// Without room for more the lock is recorded as got, and its release passes unrecorded.
void hold(const void *lock) {
  if (held.count < Held::most) held.locks[held.count++] = lock;
}

bool drop(const void *lock) {
  const void **end = held.locks + held.count, **found = std::find(held.locks, end, lock);
  if (found == end) return false;
  *found = held.locks[--held.count];
  return true;
}

// `thread_log` and not `own_log`: to make a log takes locks, and would lead here again.
bool is_recorded(const void *place) { return thread_log && !is_stopped() && !in_runtime(place); }

template <class Lock>
__attribute__((noinline)) int wait_for(Lock *lock, int (*systems)(Lock *), unsigned kind, const void *place) {
  if (!is_recorded(place)) return systems(lock);
  auto mutex = static_cast<ompt_mutex_t>(kind);
  on_lock_asked(mutex, 0, 0, name_of(lock), place);
  int status = systems(lock);
  on_lock_got(mutex, name_of(lock), place);
  // EOWNERDEAD: the thread has the lock, whose last holder ended.
  if (status && status != EOWNERDEAD) on_lock_left(mutex, name_of(lock), place);
  else hold(lock);
  return status;
}

template <class Lock>
__attribute__((noinline)) int leave(Lock *lock, int (*systems)(Lock *), unsigned kind) {
  if (!drop(lock)) return systems(lock);
  Release when = release_begins();
  int status = systems(lock);
  on_release(static_cast<ompt_mutex_t>(kind), name_of(lock), when);
  return status;
}
}  // namespace

// The system's wait gives the mutex back inside, where nobody can look on.
void leave_for_wait(const void *lock) {
  if (held.count && drop(lock)) on_lock_left(static_cast<ompt_mutex_t>(system_mutex), name_of(lock), nullptr);
}

// A free lock is only tried: neither the clock is read nor a record made. PLACE must stand in the entry itself.
#define PLACE __builtin_return_address(0)
#define LOCK(name, try_name, type, kind)                        \
  ENTRY int name(type *lock) {                                  \
    int status = own_##try_name.get()(lock);                    \
    if (__builtin_expect(status != EBUSY, true)) return status; \
    return wait_for(lock, own_##name.get(), kind, PLACE);       \
  }
#define UNLOCK(name, type, kind)                                     \
  ENTRY int name(type *lock) {                                       \
    auto systems = own_##name.get();                                 \
    bool is_recorded = __builtin_expect(held.count, 0);              \
    return is_recorded ? leave(lock, systems, kind) : systems(lock); \
  }
LOCK(pthread_mutex_lock, pthread_mutex_trylock, pthread_mutex_t, system_mutex)
UNLOCK(pthread_mutex_unlock, pthread_mutex_t, system_mutex)
UNLOCK(pthread_rwlock_unlock, pthread_rwlock_t, system_rwlock)

// A lock for readers that cannot be had at once for want of room says EAGAIN, as the one that waits would.
LOCK(pthread_rwlock_rdlock, pthread_rwlock_tryrdlock, pthread_rwlock_t, system_rwlock)
LOCK(pthread_rwlock_wrlock, pthread_rwlock_trywrlock, pthread_rwlock_t, system_rwlock)
