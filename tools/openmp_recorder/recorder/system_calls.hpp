// What a call of the system keeps to that is made in the midst of a program.
#pragma once
#include <errno.h>
#include <sys/resource.h>

#include <cstdint>

// First in whatever runs between two instructions of the program and calls the system.
class KeepErrno {  // which the program may be about to read
 public:
  ~KeepErrno() { errno = kept; }

 private:
  int kept = errno;
};

inline bool is_allowed(uint64_t bytes) {  // of a file; else the program would get a signal
  rlimit most{};
  return getrlimit(RLIMIT_FSIZE, &most) || most.rlim_cur == RLIM_INFINITY || bytes <= most.rlim_cur;
}
