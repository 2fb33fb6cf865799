#include "own_stack.hpp"

#include <pthread.h>
#include <sys/resource.h>

extern "C" char *__libc_stack_end;

namespace {
constexpr uint64_t longest_stack = 1 << 30;

// Without a limit the kernel grows the stack as far as memory is free: some bound must be taken.
uint64_t length_of_first_stack() {
  rlimit most{};
  bool is_known = !getrlimit(RLIMIT_STACK, &most) && most.rlim_cur < longest_stack;
  return is_known ? most.rlim_cur : longest_stack;
}
}  // namespace

frames::Stack own_stack() {
  if (is_first_thread()) {
    // As at the first call, while the library is loaded: the kernel left so much free below the stack. Where a program
    // raises the limit later, its coroutines may have their stacks there, and memory ends above them.
    static const uint64_t length = length_of_first_stack();
    auto end = reinterpret_cast<uint64_t>(__libc_stack_end);
    return {end - length, end};
  }
  // Of the first thread glibc would read all of /proc/self/maps.
  pthread_attr_t attributes;
  if (pthread_getattr_np(pthread_self(), &attributes)) return {};
  void *lowest = nullptr;
  size_t bytes = 0;
  pthread_attr_getstack(&attributes, &lowest, &bytes);
  pthread_attr_destroy(&attributes);
  auto first = reinterpret_cast<uint64_t>(lowest);
  return {first, first + bytes};
}
