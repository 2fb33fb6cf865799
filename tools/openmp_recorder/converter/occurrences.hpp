// How often something was met in a program, and where first.
#pragma once
#include <cstdint>

struct Occurrences {
  uint64_t times = 0;
  const void *code = nullptr;  // of the first
  bool elsewhere = false;  // too
  void add(const void *at) {
    if (!times++) code = at;
    else if (at != code) elsewhere = true;
  }
  void add(const Occurrences &more) {
    if (!more.times) return;
    if (times) elsewhere = elsewhere || more.elsewhere || more.code != code;
    else code = more.code, elsewhere = more.elsewhere;
    times += more.times;
  }
};

// By the thread that met it most; of several by the first.
struct MostOccurrences : Occurrences {
  unsigned by = 0;
  void take_if_most(const Occurrences &met, unsigned thread) {
    if (met.times > times || (met.times == times && thread < by)) static_cast<Occurrences &>(*this) = met, by = thread;
  }
};
