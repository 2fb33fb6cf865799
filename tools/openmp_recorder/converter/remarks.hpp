// What a recording lacks: what was seen, how often, where, and which number of the text that moves in which direction.
#pragma once
#include <cstddef>
#include <cstdint>
#include <map>
#include <string>

#include "occurrences.hpp"

enum class Remark : uint8_t {
  OneThread,
  MutexInOutSet,
  AllMemory,
  UnknownItem,
  ItemsLeftOut,
  BetweenTurns,
  WaitsForTurns,
  Detach,
  UnseenDetach,
  UnseenTarget,
  UnseenRuntime,
  Cancel,
  Target,
  NestedRegion,
  NestedWaits,
  LeftInside,
  RecordsFull,
  Unfinished,
  ToldLate,
  ToldElsewhere,
  PartsLeftOut,
  EqualTurns,
  TurnsTogether,
  OtherThread,
  HeldLock,
  LineOfAnother,
  Preempted,
  Slept,
  RoundedDown,
  RoundedUp,
  LinesOfGcc
};

constexpr std::size_t all_remarks = static_cast<std::size_t>(Remark::LinesOfGcc) + 1;

// A number of the text beside what it would be of the program that is recorded.
enum class Moved : uint8_t { Not, Low, High, Either };

struct RemarkLine {
  Remark remark;
  const char *name;  // by which the tools know it
  Moved work, span;
  bool counted = true;  // how often and where it was seen
};

const RemarkLine &line_of(Remark remark);

using Remarks = std::map<Remark, Occurrences>;

class Object;
class Places;
// As an object of JSON, of which spanprof/remarks.py makes words; `# remark: ` stands before it in a text's head.
std::string remark_in_json(Remark what, const Occurrences &seen, const Places &places);
Object &put_occurrences(Object &fields, const Occurrences &seen,
                        const Places &places);  // how often, and where or where first
