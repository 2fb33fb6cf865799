#include "known_stacks.hpp"

#include <algorithm>
#include <new>

#include "path_numbers.hpp"
#include "system_calls.hpp"

namespace {
// A call of gcc's code may be told with a place inside the runtime, which is that of many creations.
uint32_t telling(const CallStack &stack, const void *code) {
  auto is_creating = [&](const ReturnAddress &one) { return one.value == stack.path.front(); };
  auto creating = std::find_if(stack.all.begin(), stack.all.end(), is_creating);
  bool has_caller = creating + 1 != stack.all.end();
  return has_caller && reinterpret_cast<uintptr_t>(code) == creating->value ? creating[1].above : creating->above;
}
}  // namespace

// None is where nothing is.
KnownStacks::KnownStacks(const frames::Stack &of) : stacks{{0, 0, 0, UINT32_MAX, 0}}, lowest(of.lowest), end(of.end) {}

uint64_t KnownStacks::learn(const void *code, const void *place, const char *own) {
  auto reported = reinterpret_cast<uint64_t>(place);
  if (unwound == most_stacks || !code) return reported;
  // Counted before it is tried, so that stacks which cannot be unwound do not cost that time for ever.
  unwound++;
  KeepErrno kept;
  try {
    CallStack stack = unwind_from(own);
    // A path that does not begin at the place of the creation is one of other calls.
    if (stack.path.empty() || stack.path.front() != reported) return reported;
    uint64_t number = number_of_path(stack.path), named = number ? log_form::place_of_path(number) : reported;
    keep(code, stack, named, own);
    return named;
  } catch (const std::bad_alloc &) {
    return reported;
  }
}

bool KnownStacks::has_room(uint32_t head) const {
  unsigned count = 0;
  for (uint32_t at = head; at; at = stacks[at].next) count++;
  return count < most_in_slot;
}

void KnownStacks::keep(const void *code, const CallStack &stack, uint64_t place, const char *own) {
  Creation &creation = creations[creation_of(code)];
  if (!creation.code) {
    if (listed == most_creations) return;
    listed++;
    creation = {code, telling(stack, code)};
  }
  if (!is_of_stack(own, creation.telling)) return;
  uint32_t &head = heads[slot_of(code, word_at(own + creation.telling))];
  if (!has_room(head)) return;
  Stack known{place, static_cast<uint32_t>(words.size()), static_cast<uint32_t>(stack.all.size()),
              stack.all.back().above, head};
  words.insert(words.end(), stack.all.begin(), stack.all.end());
  stacks.push_back(known);
  head = static_cast<uint32_t>(stacks.size() - 1);
}
