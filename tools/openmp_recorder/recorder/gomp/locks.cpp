// Locks: `critical`, `atomic` where it takes one, and those of the library, also as Fortran calls them.
#include <cstdint>

#include "callbacks.hpp"
#include "here.hpp"
#include "own.hpp"

namespace {
ompt_wait_id_t name_of(const void *lock) { return reinterpret_cast<ompt_wait_id_t>(lock); }

const char unnamed_critical = 0, all_atomics = 0;

// `here` first: a program may call for a lock before anything else of OpenMP.
// While the lock is held others may wait for it: `on_lock_got` reads the counter, and nothing more is done until it is
// released. Only `took` makes its records with the lock held, since it learns of it no sooner.
template <class Own, class... Lock>
void take(ompt_mutex_t kind, const void *name, const void *place, Own own, Lock... lock) {
  here();
  on_lock_asked(kind, 0, 0, name_of(name), place);
  own(lock...);
  on_lock_got(kind, name_of(name), place);
}

template <class Own, class... Lock>
void leave(ompt_mutex_t kind, const void *name, Own own, Lock... lock) {
  Release when = release_begins();
  own(lock...);
  on_release(kind, name_of(name), when);
}

// A lock that is held now, without a wait.
int took(int is_taken, ompt_mutex_t kind, const void *name, const void *place) {
  if (!is_taken) return is_taken;
  here();
  on_lock_asked(kind, 0, 0, name_of(name), place);
  on_lock_got(kind, name_of(name), place);
  return is_taken;
}

// The locks that this thread holds and may take again. Those beyond are not told.
struct Held {
  void *lock;
  int times;
};
// In storage that is there when the thread begins: a call for a lock must not allocate. So the number is small.
constexpr unsigned most_held = 16;
__attribute__((tls_model("initial-exec"))) __thread Held held_here[most_held];

Held *held(const void *lock) {
  for (Held &one : held_here)
    if (one.times && one.lock == lock) return &one;
  return nullptr;
}

// Where all places are used the lock is recorded as got, and never as left.
void hold(void *lock) {
  for (Held &one : held_here)
    if (!one.times) return void(one = {lock, 1});
}

template <class Own>
void take_again(void *lock, const void *place, Own own) {
  if (Held *one = held(lock)) {
    one->times++;
    return own(lock);
  }
  take(ompt_mutex_nest_lock, lock, place, own, lock);
  hold(lock);
}

template <class Own>
int try_again(void *lock, const void *place, Own own) {
  int times = own(lock);
  if (!times) return times;
  if (Held *one = held(lock)) one->times++;
  else took(times, ompt_mutex_test_nest_lock, lock, place), hold(lock);
  return times;
}

template <class Own>
void leave_once(void *lock, Own own) {
  Held *one = held(lock);
  if (!one || --one->times) return own(lock);
  leave(ompt_mutex_nest_lock, lock, own, lock);
}
}  // namespace

// Every entry calls the runtime's function exactly once, and hands on its answer, whatever the recorder can do: without
// a log, or once recording has stopped, the callbacks return at once.
#define LOCKED(begin, end, kind, name)     \
  ENTRY void begin() {                     \
    ENTER(begin);                          \
    take(kind, &name, PLACE, own_##begin); \
  }                                        \
  ENTRY void end() {                       \
    ENTER(end);                            \
    leave(kind, &name, own_##end);         \
  }
LOCKED(GOMP_critical_start, GOMP_critical_end, ompt_mutex_critical, unnamed_critical)
LOCKED(GOMP_atomic_start, GOMP_atomic_end, ompt_mutex_atomic, all_atomics)

ENTRY void GOMP_critical_name_start(void **lock) {
  ENTER(GOMP_critical_name_start, lock);
  take(ompt_mutex_critical, lock, PLACE, own_GOMP_critical_name_start, lock);
}

ENTRY void GOMP_critical_name_end(void **lock) {
  ENTER(GOMP_critical_name_end, lock);
  leave(ompt_mutex_critical, lock, own_GOMP_critical_name_end, lock);
}

#define LOCK(set, test, unset)                                        \
  ENTRY void set(void *lock) {                                        \
    ENTER(set, lock);                                                 \
    take(ompt_mutex_lock, lock, PLACE, own_##set, lock);              \
  }                                                                   \
  ENTRY int test(void *lock) {                                        \
    ENTER(test, lock);                                                \
    return took(own_##test(lock), ompt_mutex_test_lock, lock, PLACE); \
  }                                                                   \
  ENTRY void unset(void *lock) {                                      \
    ENTER(unset, lock);                                               \
    leave(ompt_mutex_lock, lock, own_##unset, lock);                  \
  }
LOCK(omp_set_lock, omp_test_lock, omp_unset_lock)
LOCK(omp_set_lock_, omp_test_lock_, omp_unset_lock_)

// Only the first of a thread's calls and its last release are recorded.
#define NEST_LOCK(set, test, unset)            \
  ENTRY void set(void *lock) {                 \
    ENTER(set, lock);                          \
    take_again(lock, PLACE, own_##set);        \
  }                                            \
  ENTRY int test(void *lock) {                 \
    ENTER(test, lock);                         \
    return try_again(lock, PLACE, own_##test); \
  }                                            \
  ENTRY void unset(void *lock) {               \
    ENTER(unset, lock);                        \
    leave_once(lock, own_##unset);             \
  }
NEST_LOCK(omp_set_nest_lock, omp_test_nest_lock, omp_unset_nest_lock)
NEST_LOCK(omp_set_nest_lock_, omp_test_nest_lock_, omp_unset_nest_lock_)
