// What a task's place is called where several paths of calls led to its creation.
#pragma once
#include <cstdint>
#include <map>
#include <string>
#include <unordered_map>
#include <utility>
#include <vector>

#include "logged_paths.hpp"
#include "source.hpp"

// A path ends in the code of the task that makes the other one. Where that is of a function that is in the path before,
// as where a function recurses by tasks, it goes on with the path of that task, but for such functions. So the calls
// that led into a recursion are kept, and not its turns.
class CallPaths {
 public:
  CallPaths(const std::vector<Calls> &paths, const Places &places);  // where all their calls were looked up
  // Of a task that was made by this path, in a task with that place: it stands for the creating call and what led to
  // it, and is no address.
  const void *place(uint64_t path, const void *maker);
  void name_in(Places &places) const;  // all places that were made

 private:
  using Numbers = std::vector<uint32_t>;  // of frames, outwards
  struct Own {
    const void *creating;
    Numbers frames;
    Frame last;  // after them: code of the task that runs, or of a function that is in them
    bool has_last = false;
    uint64_t maker = 0;  // for which its place was asked last
    const void *place = nullptr;  // null before
  };
  struct Placed {
    const void *creating;
    Numbers frames;
  };
  std::vector<Own> own;  // by the number of a path, from 1
  std::vector<Placed> placed;
  std::vector<Frame> frames;
  std::map<std::pair<std::string, std::string>, uint32_t> numbers;  // of frames
  std::map<std::pair<const void *, Numbers>, uint64_t> known;  // those placed, from 1
  std::unordered_map<uint64_t, uint64_t> made;  // the same, by path and maker

  uint32_t number(const Frame &frame);
  bool has_function(const Numbers &path, const std::string &function) const;
  void add_own(const Calls &calls, const Places &places);
  Numbers whole(const Own &path, const Placed *maker);
  uint64_t put(const void *creating, Numbers path);
  void name(const std::vector<uint64_t> &alike, size_t frame, const std::string &name, unsigned named,
            Places &places) const;
};
