// Made-up records of a run, as the runtime's calls would leave them.
#pragma once
#include <omp-tools.h>

#include <memory>
#include <string>
#include <vector>

#include "events.hpp"
#include "run.hpp"
#include "program_text.hpp"

class Kept : public Records {  // records that are kept in a list
 public:
  explicit Kept(unsigned worker) : Records(worker) {}
  const Record *next() override { return at == records.size() ? nullptr : &records[at++]; }
  void begin_again() { at = 0; }
  std::vector<Record> records;

 private:
  size_t at = 0;
};

class Made {
 public:
  explicit Made(unsigned many = 1);  // of region 1, whose implicit tasks have the numbers 1 and on
  Made &after(int64_t nanoseconds);  // the next records are so much later
  Made &stood_still(uint32_t nanoseconds);  // of them the next record's thread was in the recorder
  Made &add(unsigned thread, RecordKind kind, uint32_t task, uint32_t other = 0, unsigned detail = 0,
            uint64_t code = 0);
  Made &begin_threads();
  Made &region_inside(uint32_t region, unsigned many, int64_t nanoseconds);  // of which one thread is recorded
  Made &create(unsigned thread, uint32_t task, uint32_t child, unsigned details = 0, uint64_t place = 100);
  Made &path(unsigned thread, uint32_t number);  // of the thread's last record
  Made &depend(unsigned thread, uint32_t task, const std::vector<DependItem> &items);  // task 0: of a wait
  Made &go(unsigned thread, uint32_t from, uint32_t to, ompt_task_status_t why = ompt_task_switch);
  Made &run(unsigned thread, uint32_t from, uint32_t task, int64_t nanoseconds);  // begins, costs so much, and ends
  Made &sync(unsigned thread, uint32_t task, ompt_sync_region_t kind);  // begins and ends at once
  Made &barrier(unsigned thread, uint32_t task);  // begins
  Made &passed(unsigned thread, int64_t wall, int64_t processor, bool slept,
               bool taken = false);  // until the next record
  Made &sample(unsigned thread, uint32_t stack, uint32_t microseconds, bool slept = false);
  int64_t now() const { return time; }
  Run read(Ending ending = {}, const HowToRead &how = {});

 private:
  std::vector<std::unique_ptr<Kept>> threads;
  unsigned count;
  uint32_t order = 0, still = 0;
  int64_t time = 1000;
};

DependItem item(ompt_dependence_type_t type, uint64_t address);
Region &only_region(Run &run);  // composed and added up
std::string whole_text(Region &region, const Style &style, const Places &places);
std::string text_of(Region &region, const Style &style = {});  // without its first line
std::string events_of(Region &region);  // after its text
Events event_lines(const Region &region);  // of one that is held
std::string told_times(const Region &region, Events events);
std::string times_of(Region &region);  // of its text, part by part, and of what was off the processor there
