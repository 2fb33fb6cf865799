#include "switches.hpp"

#include <dlfcn.h>
#include <sys/syscall.h>
#include <time.h>
#include <unistd.h>

#include <cstddef>

bool switches_are_known = false;
Sequence never_runs{};
const void *volatile Kept::always = &never_runs;

namespace {
constexpr uint32_t signature = 0x53053053;  // that glibc registers on x86-64
std::ptrdiff_t offset = 0;  // of what glibc registers, from the thread's pointer

// As the kernel has it.
struct Registered {
  uint32_t begins_on;
  int32_t processor;  // below 0 where the thread is not registered
  const void *volatile sequence;
};

// By the thread's pointer and without a call: right in any thread, and at any time of its life, once `offset` is known.
Registered &own_one() {
  char *thread = nullptr;
#if defined(__x86_64__)
  asm("movq %%fs:0, %0" : "=r"(thread));
#endif
  return *reinterpret_cast<Registered *>(thread + offset);
}

// glibc has both since 2.35; the size is 0 where the kernel knows no sequences, or the program has asked for none.
// It asks the loader: only while recording begins.
bool are_registered() {
  auto *size = static_cast<const unsigned *>(dlsym(RTLD_DEFAULT, "__rseq_size"));
  auto *where = static_cast<const std::ptrdiff_t *>(dlsym(RTLD_DEFAULT, "__rseq_offset"));
  if (!size || !where || !*size) return false;
  offset = *where;
  return own_one().processor >= 0;
}

// One byte at which no code runs: the kernel finds the thread outside of it, clears the word, and never goes to `left`.
// It may end a program whose sequence has a wrong version, range, or signature before `behind`.
void fill_sequence() {
  auto address = [](const void *of) { return reinterpret_cast<uint64_t>(of); };
  never_runs.start = address(&never_runs.no_code);
  never_runs.bytes = 1;
  never_runs.left = address(never_runs.behind);
  never_runs.signature = signature;
}

// Kernels may leave the word where no sequence can have been interrupted, as in a call of the system: then it says
// nothing about a thread that sleeps. The kernel's call, since the function of that name may be this library's.
bool is_cleared_by_sleep() {
  timespec little{0, 50000};
  Kept own;
  own.begin_thread();
  own.set();
  syscall(SYS_nanosleep, &little, nullptr);
  return !own.stands();
}
}  // namespace

// A thread that glibc did not register, as one made by `clone`, has no such word: its switches are not known.
void Kept::begin_thread() {
  word = &always;
  if (switches_are_known && own_one().processor >= 0) word = &own_one().sequence;
}

// For this thread alone, and for good: others still have their words.
void Kept::give_up() { word = &always; }

// Before any thread records; it tries the calling thread's own word.
void look_for_switches(bool are_wanted) {
  switches_are_known = false;
#if defined(__x86_64__)
  if (!are_wanted || !are_registered()) return;
  fill_sequence();
  switches_are_known = true;
  switches_are_known = is_cleared_by_sleep();
#else
  (void)are_wanted;
#endif
}
