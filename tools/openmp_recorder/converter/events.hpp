// The events of a region's run, once its text has numbered the segments.
#pragma once
#include <map>
#include <memory>
#include <string>

#include "column.hpp"
#include "files.hpp"
#include "run.hpp"
#include "program_text.hpp"

// When a segment ran, in nanoseconds of the wall clock since the region began.
struct SegmentTime {
  unsigned worker = 0;
  int64_t begin = 0, end = 0;
};

// Of a text that is written part by part. Those of parts but the last stand in a file beside it.
class Events {
 public:
  explicit Events(std::string name = {}) : beside(std::move(name)) {}
  void take(const Region &region, const Region &part, uint32_t first, uint32_t end);  // with these segments
  bool are_whole() const { return finished == first + times.size(); }  // every segment of the text began and ended
  size_t workers() const { return numbers.size(); }
  uint32_t first_segment() const { return first; }  // of the last part
  // What follows the text in a timed document: the times of all segments, on the threads of the region and those that
  // ran its tasks beside them.
  void print(const Region &region, const Taker &taker);
  Column<SegmentTime> times;  // of the last part

 private:
  std::string beside;  // the first name of the file
  std::unique_ptr<NamelessFile> file;
  size_t in_file = 0;  // bytes
  uint32_t first = 0;  // number of the last part's first segment
  size_t finished = 0;
  int64_t last = 0;  // when the last segment ended that is in the file
  std::map<unsigned, unsigned> numbers;  // of threads, in the order in which they are met
  void put_away(uint32_t count);
  void put_rows(size_t count, const Taker &taker);  // the first ones
};
