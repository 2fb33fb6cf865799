// Made-up programs of which all is one text.
#pragma once
#include <string>
#include <utility>
#include <vector>

#include "events.hpp"
#include "size.hpp"
#include "stretches.hpp"
#include "whole_program.hpp"
#include "check.hpp"
#include "made.hpp"

constexpr int64_t us = 1000;

// A program that began 100 before its region, which it meets with its first thread.
class Program : public Made {
 public:
  using Made::Made;
  Run &whole(Ending ending = {}, uint64_t most_timed = UINT64_MAX) {
    int64_t end = ending.killed ? 0 : now();
    found = read(ending, {most_timed, true, began, ending.wall ? 0 : now(), nullptr, true, began, end});
    finish_whole(found, {0, true, began, now()}, 1);
    size_of(*found.whole);
    return found;
  }
  // Of records of which nothing runs by itself later than the last.
  Run &released() {
    found =
        read({}, {UINT64_MAX, true, began, now(), nullptr, true, began, now(), 0, {}, nullptr, "/tmp/spanprof_let_go"});
    finish_whole(found, {0, true, began, now()}, 1);
    size_of(*found.whole);
    return found;
  }
  std::string text() {  // the same where what is over was let go, with its times
    std::string few = text_of(*released().whole), few_times = times_of(*found.whole), all = text_of(*whole().whole);
    EXPECT(few, all);
    EXPECT(few_times, times_of(*found.whole));
    return all;
  }
  std::string times() {  // of the text, below the line of all of them
    text();
    std::string words = told_times(*found.whole, event_lines(*found.whole));
    return words.substr(words.find('\n') + 1);
  }
  Run found;

 private:
  static constexpr int64_t began = 900;
};

inline void end_region(Made &made, unsigned many = 1, uint32_t region = 1) {
  for (unsigned i = 0; i < many; i++) made.barrier(i, 1 + i);
  made.add(0, RecordKind::ParallelEnd, 0, region);
}

inline void loop(Made &made, unsigned thread, uint32_t count, const std::vector<std::pair<uint32_t, int64_t>> &chunks,
                 uint32_t region = 1) {
  made.add(thread, RecordKind::Divided, count, region, 0, 50);
  for (auto &[turns, cost] : chunks) made.add(thread, RecordKind::Chunk, turns).after(cost);
  made.add(thread, RecordKind::DividedEnd, 0, region);
}
