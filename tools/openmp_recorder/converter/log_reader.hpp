// A log of the recorder's library, read as it lies on the disk.
#pragma once
#include <cstdint>
#include <memory>
#include <string>
#include <vector>

#include "log_form.hpp"
#include "logged_paths.hpp"
#include "logged_samples.hpp"
#include "modules_of_run.hpp"
#include "records.hpp"

// What cannot be read ends in an exception.
class LogFolder {
 public:
  explicit LogFolder(const std::string &path);
  log_form::Head head{};
  std::vector<std::unique_ptr<Records>> threads;
  ModulesOfRun modules;
  LoggedPaths paths;
  Stacks stacks;  // of the samples
  bool is_running() const { return runs; }  // the program that writes it
  int64_t wall(const log_form::Pair &pair) const;

 private:
  bool runs = false;
};

// How ticks become nanoseconds of the wall clock.
class TickTime {
 public:
  explicit TickTime(const log_form::Head &head);
  int64_t nanoseconds(uint64_t ticks) const {
    return static_cast<int64_t>(static_cast<double>(static_cast<int64_t>(ticks)) * tick);
  }
  int64_t wall(uint64_t ticks) const { return first.wall + nanoseconds(ticks - first.ticks); }

 private:
  log_form::Pair first;
  double tick = 1;
};
