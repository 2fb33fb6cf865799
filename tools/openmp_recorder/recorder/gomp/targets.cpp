// `target` where there is no device: its code runs in the calling thread, outside of any team, or by `nowait` as a
// task. Where there is a device nothing is recorded.
#include <cstddef>
#include <memory>
#include <vector>

#include "own.hpp"
#include "tasks.hpp"
#include "waits.hpp"

namespace {
constexpr unsigned target_nowait = 1;
constexpr unsigned short given_by_value = 13;  // of the kinds of an address

// Of a task it is on the heap and deleted by `run_later`, since the creating call returns before; else on the stack.
struct Target {
  Head head;
  Code code;
  void **addresses;
};

// What the runtime is handed: first ours, and then what the program maps.
// The runtime copies the three lists before its call returns, also for a task that runs later.
struct Mapped {
  Mapped(Target *first, size_t count, void **address, size_t *size, unsigned short *kind)
      : addresses{first}, sizes{0}, kinds{given_by_value} {
    addresses.insert(addresses.end(), address, address + count);
    sizes.insert(sizes.end(), size, size + count);
    kinds.insert(kinds.end(), kind, kind + count);
  }
  std::vector<void *> addresses;
  std::vector<size_t> sizes;
  std::vector<unsigned short> kinds;
};

Target &target_of(void *addresses) {
  void **all = static_cast<void **>(addresses);
  Target &target = *static_cast<Target *>(all[0]);
  target.addresses = all + 1;
  return target;
}

// The thread's state is put back as a whole: the code may begin regions, which change each part of it.
void run_outside_of_teams(void *of) {
  Target &target = *reinterpret_cast<Target *>(static_cast<char *>(of) - sizeof(Head));
  Here &own = here();
  Here before = own;
  own.in_team = own.is_final = own.in_divided = false;
  own.copied = nullptr;
  target.code(target.addresses);
  own = before;
}

// No task of its own: only what it waited for is recorded.
// On the thread of the call and before that returns, so `Target` may lie on its stack.
void run_at_once(void *addresses) {
  Target &target = target_of(addresses);
  if (target.head.waits) tell_waited_for();
  run_outside_of_teams(target.head.data());
}

// Of a task that the runtime discards nothing is called, and its `Target` stays: the runtime gives no sign of that.
void run_later(void *addresses) {
  std::unique_ptr<Target> target(&target_of(addresses));
  run_task(&target->head);
}

Head head_of_target(const void *place) {
  static_assert(offsetof(Target, code) == sizeof(Head), "the head's data is what follows it");
  Head head{};
  head.code = run_outside_of_teams;
  head.place = place;
  head.start = sizeof(Head);
  head.flags = ompt_task_explicit;
  return head;
}

// Also where the program's own tasks are LLVM's.
bool is_unknown() {
  static const bool is_of_llvm = llvms_function("GOMP_task", nullptr);
  static const bool has_device = reinterpret_cast<int (*)()>(own_function("omp_get_num_devices"))() > 0;
  return is_of_llvm || has_device || is_cancelled(cancelled_group);
}

// Without a device they only wait.
void wait_for_items(unsigned flags, void **depend, const void *place) {
  if (!depend) return;
  if (flags & target_nowait) make_empty_task(depend, place);
  else wait_for(depend, place);
}
}  // namespace

ENTRY void GOMP_target_ext(int device, Code code, size_t count, void **addresses, size_t *sizes, unsigned short *kinds,
                           unsigned flags, void **depend, void **more) {
  ENTER(GOMP_target_ext, device, code, count, addresses, sizes, kinds, flags, depend, more);
  if (is_unknown()) return own_GOMP_target_ext(device, code, count, addresses, sizes, kinds, flags, depend, more);
  Here &own = here();
  bool is_task = flags & target_nowait && !own.is_final;
  Target at_once{head_of_target(PLACE), code, nullptr};
  Target *target = is_task ? new Target(at_once) : &at_once;
  Mapped all(target, count, addresses, sizes, kinds);
  if (is_task) {
    own.in_team = true;  // where it was in none the runtime makes one of this thread
    tell_task(own, target->head, depend);
  } else if (depend) {
    tell_wait_for(depend, waits_alone, PLACE);
    target->head.waits = true;
  }
  own_GOMP_target_ext(device, is_task ? run_later : run_at_once, count + 1, all.addresses.data(), all.sizes.data(),
                      all.kinds.data(), flags, depend, more);
}

#define COPIED(name)                                                                                                \
  ENTRY void name(int device, size_t count, void **addresses, size_t *sizes, unsigned short *kinds, unsigned flags, \
                  void **depend) {                                                                                  \
    ENTER(name, device, count, addresses, sizes, kinds, flags, depend);                                             \
    if (is_unknown()) return own_##name(device, count, addresses, sizes, kinds, flags, depend);                     \
    wait_for_items(flags, depend, PLACE);                                                                           \
    own_##name(device, count, addresses, sizes, kinds, flags, nullptr);                                             \
  }
COPIED(GOMP_target_update_ext)
COPIED(GOMP_target_enter_exit_data)
