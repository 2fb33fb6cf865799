// Whether a thread has kept its processor since it last asked, by one load: the kernel clears the word of a thread's
// restartable sequences (`rseq_cs`, which glibc registers for each thread) before the thread goes on after it was
// switched out, moved to another processor, or sent a signal. Here the word names a sequence that never runs.
//
// What must hold, or costs are wrong, or the kernel ends the program by a signal:
// - The word is set before the clocks are read that later readings are compared with. While it stands, the thread was
//   on its processor since then, so ticks since then are its processor time. Where it does not stand, the
//   kernel's clock is read anew, and the word set before that.
// - It is read after the counter, so a switch between the two is seen.
// - The sequence and its signature stay mapped as long as a thread lives: this library is never unloaded
//   (`-z nodelete`), and a thread that ends leaves the word to the next one on its stack.
// - Only the thread itself reads and sets it. A handler of a signal may: the word is cleared before it begins.
#pragma once
#include <cstdint>

extern bool switches_are_known;  // set once, before threads read it: the kernel was seen to clear the word

// As the kernel has it, up to the signature that stands before where a sequence that is left goes on.
struct alignas(32) Sequence {
  uint32_t version, flags;
  uint64_t start, bytes, left;
  uint32_t no_code, signature, behind[6];
};
extern Sequence never_runs;

class Kept {
 public:
  void begin_thread();  // the calling one, whose word is not set yet
  void give_up();  // the word is another's: from then on it stands always
  bool is_known() const { return word != &always; }
  bool stands() const { return __builtin_expect(*word == &never_runs, true); }
  bool is_of_others() const { return *word && !stands(); }  // a library of the program's has sequences of its own
  void set() { *word = &never_runs; }

 private:
  static const void *volatile always;
  const void *volatile *word = &always;
};

void look_for_switches(bool are_wanted);
