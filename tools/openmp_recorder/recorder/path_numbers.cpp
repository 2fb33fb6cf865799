#include "path_numbers.hpp"

#include <fcntl.h>
#include <unistd.h>

#include <cinttypes>
#include <cstdio>
#include <map>
#include <mutex>
#include <new>

#include "log_form.hpp"
#include "system_calls.hpp"

namespace {
// Once records are made, used with its lock held alone.
struct Paths {
  std::mutex adding;
  std::string file;
  std::map<std::vector<uintptr_t>, uint64_t> numbers;
  uint64_t lines = 0;  // in the file: a path's number is that of its line
  uint64_t bytes = 0;
  bool is_full = false;
};

Paths &paths = *new Paths;  // never destroyed: tasks may be made while the process ends

// As the converter reads it: addresses in hexadecimal, from the creation outwards.
std::string line_of(const std::vector<uintptr_t> &calls) {
  std::string line;
  for (uintptr_t call : calls) {
    char word[32];
    snprintf(word, sizeof word, "%s%" PRIxPTR, line.empty() ? "" : " ", call);
    line += word;
  }
  return line + "\n";
}

// A line that was not written whole is the last one.
// The file is opened anew each time: a program may close files that it did not open, and use their numbers.
bool append(const std::string &line) {
  if (!is_allowed(paths.bytes + line.size())) return false;
  int file = open(paths.file.c_str(), O_WRONLY | O_APPEND | O_CLOEXEC);
  if (file < 0) return false;
  ssize_t written = write(file, line.data(), line.size());
  close(file);
  paths.bytes += line.size();
  if (written != static_cast<ssize_t>(line.size())) return false;
  paths.lines++;
  return true;
}

uint64_t add(const std::vector<uintptr_t> &calls) {
  if (paths.is_full || paths.lines >= log_form::most_paths || !append(line_of(calls))) {
    paths.is_full = true;
    return 0;
  }
  // The line is in the file by now: a record may name the number as soon as this returns. Where memory is out here the
  // path gets no number, but its line still counts.
  return paths.numbers[calls] = paths.lines;
}
}  // namespace

void begin_paths(const std::string &folder) {
  paths.file = folder + log_form::paths_file;
  int file = open(paths.file.c_str(), O_WRONLY | O_CREAT | O_CLOEXEC, 0666);
  paths.is_full = file < 0;
  if (file >= 0) close(file);
}

// It may write to the disk while other threads wait for the lock: once for each path.
uint64_t number_of_path(const std::vector<uintptr_t> &calls) {
  std::lock_guard<std::mutex> guard(paths.adding);
  auto known = paths.numbers.find(calls);
  return known == paths.numbers.end() ? add(calls) : known->second;
}

void forget_paths() { new (&paths) Paths; }  // another thread may have held the lock when the process forked
