// The call paths of creations that a thread has unwound, found again by a few words of the stack.
#pragma once
#include <array>
#include <cstdint>
#include <cstring>
#include <vector>

#include "frames.hpp"
#include "unwind.hpp"

// What is known of a stack is where its return addresses stood, and which they were. Where all of them stand there now,
// the path is the same: a function has its caller's return address as far above its own as at the last call from this
// address, unless its frame varies (`alloca`, arrays of variable length). Of such a function an old word may be taken
// for it, where that is a return address that stood there in a path of the same calls below.
// One thread's own, since it knows where that thread's stack lies: it must not outlive the thread.
class KnownStacks {
 public:
  struct Stack {
    uint64_t place;  // as the record has it
    uint32_t first, count;  // words
    uint32_t farthest;  // of them
    uint32_t next;  // of the same slot; 0 is none
  };
  explicit KnownStacks(const frames::Stack &of);  // the thread's own
  // `code` is the place that the runtime tells, and `own` where the recorder's return address stands.
  // Without a lock or memory, since most creations come here. `own` is where the return address of the running callback
  // stands; the answer holds until `learn` is called.
  const Stack *find(const void *code, const char *own) {
    return __builtin_expect(holds(stacks[recent], own), true) ? &stacks[recent] : find_other(code, own);
  }
  // The place in the program is as the runtime told it, or as it was looked for.
  // It unwinds, allocates and locks, and never throws. Where memory is out it gives the place without a path.
  uint64_t learn(const void *code, const void *place, const char *own);

 private:
  const Stack *find_other(const void *code, const char *own) {
    const Creation &creation = creations[creation_of(code)];
    if (!creation.code || !is_of_stack(own, creation.telling)) return nullptr;
    uint32_t at = heads[slot_of(code, word_at(own + creation.telling))];
    while (at && !holds(stacks[at], own)) at = stacks[at].next;
    if (!at) return nullptr;
    recent = at;
    return &stacks[at];
  }
  static constexpr unsigned slot_bits = 10;
  static constexpr uint32_t most_stacks = 4096;  // that are unwound, since a program may have too many
  static constexpr unsigned most_in_slot = 64, most_creations = 1 << (slot_bits - 1);
  struct Creation {
    const void *code;  // as the runtime tells it
    uint32_t telling;  // where the word stands that the slots go by: the caller, or the creating call itself
  };
  std::array<Creation, 1 << slot_bits> creations{};
  std::array<uint32_t, 1 << slot_bits> heads{};
  std::vector<Stack> stacks;  // from 1
  uint32_t recent = 0;  // of them
  std::vector<ReturnAddress> words;
  uint32_t unwound = 0;
  unsigned listed = 0;  // creations
  uintptr_t lowest, end;  // of the thread's stack

  static unsigned slot(uint64_t number) {
    return static_cast<unsigned>(number * 0x9e3779b97f4a7c15 >> (64 - slot_bits));
  }
  static unsigned slot_of(const void *code, uintptr_t telling) {
    return slot(reinterpret_cast<uintptr_t>(code) + 3 * uint64_t{telling});
  }
  // Of this code, or one that is free.
  // It ends, since at most half of the entries are used (`most_creations`).
  unsigned creation_of(const void *code) const {
    unsigned at = slot(reinterpret_cast<uintptr_t>(code));
    while (creations[at].code && creations[at].code != code) at = (at + 1) % creations.size();
    return at;
  }
  static uintptr_t word_at(const char *place) {
    uintptr_t word;
    std::memcpy(&word, place, sizeof word);
    return word;
  }
  // What is read lies on the stack that the thread began with: one that the program gave it, as for a coroutine, may
  // end anywhere.
  bool is_of_stack(const char *own, uint32_t above) const {
    auto at = reinterpret_cast<uintptr_t>(own);
    return lowest <= at && at + above + sizeof(uintptr_t) <= end;
  }
  // Ask for the farthest word before any is read.
  bool holds(const Stack &stack, const char *own) const {
    if (!is_of_stack(own, stack.farthest)) return false;
    const ReturnAddress *word = words.data() + stack.first;
    for (const ReturnAddress *end = word + stack.count; word != end; word++)
      if (word_at(own + word->above) != word->value) return false;
    return true;
  }
  void keep(const void *code, const CallStack &stack, uint64_t place, const char *own);
  bool has_room(uint32_t head) const;
};
