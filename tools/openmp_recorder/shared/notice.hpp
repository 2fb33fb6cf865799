// A line on standard error.
#pragma once
#include <stdio.h>
#include <unistd.h>

#include <string>

inline void notice(const char *words) {  // without `malloc`
  dprintf(STDERR_FILENO, "spanprof recorder: %s\n", words);
}

inline void notice(const std::string &words) { notice(words.c_str()); }
