// What was released of the whole program: its text up to regions that have ended, stretch by stretch, in a file without
// a name beside the texts. A stretch is a program of its own, whose root has the root's steps of it.
#pragma once
#include <functional>
#include <set>
#include <string>
#include <vector>

#include "files.hpp"
#include "head.hpp"
#include "lines.hpp"
#include "run.hpp"
#include "size.hpp"
#include "span.hpp"

class Stretches {
 public:
  explicit Stretches(const std::string &beside) : file(beside) {}
  void put(Region &stretch);  // what its tasks have; numbers them, for chunks of loops that are among them
  void put_last_first(const Task &root);  // in the text: what was put last runs beside all else
  std::size_t count() const { return counts.size(); }
  // Reads all again, one at a time, with the number of each and its tasks by their numbers; with events if asked for.
  void each(bool timed, const std::function<void(Region &, std::size_t, const std::vector<Task *> &)> &take);

  // sums of all that were put
  uint64_t tasks = 0;  // that are no chunks of loops
  int64_t work = 0;
  RootEnds finest;  // with a piece for each turn
  LocationEnds ends;  // of all, one after the other
  Beside beside;
  std::vector<std::size_t> chunks;  // of the program's, until the end of each

  // sums of them as they are written
  void begin_sums() { size = {}, work_in_units = 0, constructs = {}; }
  void take_sums(Region &stretch, int64_t unit);
  Size size;
  int64_t work_in_units = 0;
  std::set<const void *> codes;
  Constructs constructs;

 private:
  struct Count {
    uint32_t tasks;
    std::size_t events;
    std::size_t begin;  // in the file
  };
  NamelessFile file;
  std::vector<Count> counts;  // of each
  bool is_last_first = false;
  void put_task(const Task &t);
  void put_events(const EventList &events);
  void get_task(Task &t, const std::vector<Task *> &all);
  void get_events(EventList &events, std::size_t count, const std::vector<Task *> &all);
};

// What was let go of a region, in the order of the text, with its pieces of loops; it is not added up.
// `numbered`: with the times of its tasks, and what they ran.
void each_stretch(Region &region, bool numbered, const std::function<void(Region &)> &take);
