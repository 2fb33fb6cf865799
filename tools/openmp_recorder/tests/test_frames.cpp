// The walk of a stack, compared with the system's own.
#include <execinfo.h>
#include <ucontext.h>

#include <algorithm>
#include <cstdlib>
#include <string>
#include <vector>

#include "frames.hpp"
#include "registers.hpp"
#include "check.hpp"

#if defined(__x86_64__)
namespace {
constexpr unsigned most = 40;
extern "C" char *__libc_stack_end;

struct Both {
  std::vector<uint64_t> own, systems;
};

frames::Stack whole_stack() {
  char here;
  return {reinterpret_cast<uint64_t>(&here) - 4096, reinterpret_cast<uint64_t>(__libc_stack_end)};
}

__attribute__((noinline)) void look(Both &found) {
  ucontext_t context;
  getcontext(&context);
  uint64_t out[most];
  unsigned count = frames::walk(registers_of(context), whole_stack(), out, most);
  found.own.assign(out, out + count);
  void *all[most];
  int others = backtrace(all, most);
  for (int i = 0; i < others; i++) found.systems.push_back(reinterpret_cast<uint64_t>(all[i]));
}

__attribute__((noinline)) int with_room(Both &found, int size) {  // of a frame of variable length
  auto *room = static_cast<volatile char *>(__builtin_alloca(static_cast<size_t>(size)));
  room[0] = 1;
  look(found);
  return room[0];
}

__attribute__((noinline)) int aligned(Both &found) {  // the compiler finds its caller's frame by an expression
  alignas(64) volatile char room[256];
  room[0] = 1;
  return with_room(found, 100 + room[0]) + room[0];
}

int compare(const void *left, const void *) {
  Both &found = **static_cast<Both *const *>(left);
  if (found.own.empty()) aligned(found);
  return 0;
}
}  // namespace

TEST(a_walk_finds_the_calls_that_the_system_finds) {
  if (!frames::are_known()) return;
  Both found, *two[] = {&found, &found};
  qsort(two, 2, sizeof two[0], compare);  // by code of another module
  EXPECT(found.own.size() > 6, true);
  EXPECT(found.own.size(), found.systems.size());
  bool are_same = std::equal(found.own.begin() + 1, found.own.end(), found.systems.begin() + 1, found.systems.end());
  EXPECT(are_same, true);
}

TEST(a_walk_ends_where_the_stack_does_or_no_table_is_known) {
  if (!frames::are_known()) return;
  ucontext_t context;
  getcontext(&context);
  frames::State state = registers_of(context);
  uint64_t out[most];
  EXPECT(frames::walk(state, {0, 0}, out, most), 1u);
  EXPECT(frames::walk(state, whole_stack(), out, 2), 2u);
  EXPECT(frames::walk(state, whole_stack(), out, 0), 0u);
  state.values[frames::instruction] = 16;
  EXPECT(frames::walk(state, whole_stack(), out, most), 1u);
}
#endif
