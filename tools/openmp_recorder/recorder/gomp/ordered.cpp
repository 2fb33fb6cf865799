// Turns of a loop that wait for each other: `ordered`, with `depend` or without.
#include <stdarg.h>

#include <algorithm>
#include <utility>
#include <vector>

#include "callbacks.hpp"
#include "record_kind.hpp"
#include "here.hpp"
#include "own.hpp"

namespace {
using Unsigned = unsigned long long;
constexpr auto order = static_cast<ompt_mutex_t>(order_of_turns);
constexpr unsigned few_loops = 8, most_loops = 128;  // within each other: more than compilers have to take

// The turn by its numbers in the loops. A source is recorded before the runtime's call, a sink after it, so that their
// records are in the order of what happened.
template <class Turn>
void tell_turn(const Turn *numbers, ompt_dependence_type_t type) {
  std::vector<ompt_dependence_t> items(here().counts);
  for (size_t i = 0; i < items.size(); i++) {
    items[i].variable.value = static_cast<uint64_t>(numbers[i]);
    items[i].dependence_type = type;
  }
  on_dependences(here().task, items.data(), static_cast<int>(items.size()));
}

template <class Turn, size_t... Loop>
void hand_on(void (*wait)(Turn, ...), const Turn *turn, std::index_sequence<Loop...>) {
  wait(turn[Loop]...);
}

// One for each thread, with the lowest bit set: no lock has this address.
ompt_wait_id_t name_of_order() { return reinterpret_cast<ompt_wait_id_t>(&this_here.counts) | 1; }
}  // namespace

// As a lock, whose wait counts as no code: the thread holds it while no other turn is in such a part.
ENTRY void GOMP_ordered_start() {
  ENTER(GOMP_ordered_start);
  here();
  on_lock_asked(order, 0, 0, name_of_order(), PLACE);
  own_GOMP_ordered_start();
  on_lock_got(order, name_of_order(), PLACE);
}

ENTRY void GOMP_ordered_end() {
  ENTER(GOMP_ordered_end);
  Release when = release_begins();
  own_GOMP_ordered_end();
  on_release(order, name_of_order(), when);
}

ENTRY void GOMP_doacross_post(long *turn) {
  ENTER(GOMP_doacross_post, turn);
  tell_turn(turn, ompt_dependence_type_source);
  own_GOMP_doacross_post(turn);
}

ENTRY void GOMP_doacross_ull_post(Unsigned *turn) {
  ENTER(GOMP_doacross_ull_post, turn);
  tell_turn(turn, ompt_dependence_type_source);
  own_GOMP_doacross_ull_post(turn);
}

// The turn's numbers in the inner loops follow that in the outermost.
// Where another runtime answers, the number of arguments is not known here: the most are read and handed on, and it
// uses those that there are.
#define WAIT(name, Turn)                                                                 \
  ENTRY void name(Turn first, ...) {                                                     \
    static void *const llvms = llvms_function(#name, PLACE);                             \
    static void *const own = llvms ? llvms : own_function(#name);                        \
    void *others = passed_on(llvms, #name, PLACE);                                       \
    auto call = reinterpret_cast<void (*)(Turn, ...)>(others ? others : own);            \
    unsigned counts = others ? most_loops : std::min(here().counts, most_loops);         \
    Turn turn[most_loops] = {first};                                                     \
    va_list more;                                                                        \
    va_start(more, first);                                                               \
    for (unsigned i = 1; i < counts; i++) turn[i] = va_arg(more, Turn);                  \
    va_end(more);                                                                        \
    if (counts <= few_loops) hand_on(call, turn, std::make_index_sequence<few_loops>()); \
    else hand_on(call, turn, std::make_index_sequence<most_loops>());                    \
    if (!others) tell_turn(turn, ompt_dependence_type_sink);                             \
  }
WAIT(GOMP_doacross_wait, long)
WAIT(GOMP_doacross_ull_wait, Unsigned)
