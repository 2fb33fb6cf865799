// How far apart the memory is that a loop uses from turn to turn, by its instructions and the registers of samples.
// Where that is a cache line or more, each element costs a line, unless the turn uses what stands next to it. Where the
// loop uses more lines than the first cache has, of more memory than the second one, each line comes from far, and is
// gone before the element next to it is used.
#pragma once
#include <map>
#include <optional>
#include <set>
#include <utility>
#include <vector>

#include "machine_code.hpp"

// How the address that an instruction uses goes on in the innermost loop around it.
struct Walk {
  int64_t bytes = 0;  // of a turn
  std::vector<std::pair<int, int64_t>> by;  // and by registers, so often
  uint64_t back = 0;  // the loop's last instruction
  unsigned uses = 0;  // of the same registers in a turn
  bool is_sparse = true;  // it uses less than half of the lines that it touches
  Compared end;  // what ends the loop, and how that goes on
  int64_t end_bytes = 0;
  std::vector<std::pair<int, int64_t>> end_by;
};
std::optional<Walk> walk_of(const Instructions &code, const MemoryUse &use);
int64_t stride_of(const Walk &walk, const Registers &registers);  // of one use
uint64_t turns_left(const Walk &walk, const Registers &registers);  // 0 where that is not known

struct Caches {
  uint64_t first, second;  // bytes of those that a processor has for itself
};
Caches caches_of_machine();

// The walks of a function's uses, each read once, and how far those with wide strides go.
class Strides {
 public:
  Strides(const Instructions &code, Caches caches) : code(code), caches(caches) {}
  void meet(size_t sample, const MemoryUse &use, const Registers &registers);
  // The samples of uses that cost a line for each element, and the last instructions of their loops.
  std::map<size_t, uint64_t> wide() const;

 private:
  struct Far {
    uint64_t back = 0;
    std::vector<size_t> samples;
    uint64_t lines = 0, bytes = 0;  // from the first to the last element of the longest loop
  };

  const Instructions &code;
  const Caches caches;
  std::map<uint64_t, std::optional<Walk>> walks;
  std::map<uint64_t, Far> far;  // by use
};
