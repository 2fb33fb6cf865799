#include "remarks.hpp"

#include "json.hpp"
#include "source.hpp"

namespace {
constexpr Moved Not = Moved::Not, Low = Moved::Low, High = Moved::High, Either = Moved::Either;
constexpr bool uncounted = false;

// In the order of the names.
constexpr RemarkLine lines[] = {
    {Remark::OneThread, "one thread", Not, High},
    {Remark::MutexInOutSet, "mutexinoutset", Not, Low},
    {Remark::AllMemory, "all memory", Not, Low},
    {Remark::UnknownItem, "unknown item", Not, High},
    {Remark::ItemsLeftOut, "items left out", Not, Low},
    {Remark::BetweenTurns, "between turns", High, Either},
    {Remark::WaitsForTurns, "wait for a turn", Either, Either},
    {Remark::Detach, "detach", Not, Low},
    {Remark::UnseenDetach, "unseen detach", Not, Low, uncounted},
    {Remark::UnseenTarget, "unseen target", Low, Low, uncounted},
    {Remark::UnseenRuntime, "unseen runtime", Low, Low, uncounted},
    {Remark::Cancel, "cancellation", Either, Either},
    {Remark::Target, "target", Low, Low},
    {Remark::NestedRegion, "region in a task", Low, High},
    {Remark::NestedWaits, "region beyond its task", Low, Low},
    {Remark::LeftInside, "ended inside", Low, Low, uncounted},
    {Remark::RecordsFull, "records full", Low, Low, uncounted},
    {Remark::Unfinished, "unfinished task", Low, Low},
    {Remark::ToldLate, "told late", High, High},
    {Remark::ToldElsewhere, "told elsewhere", Low, Low},
    {Remark::PartsLeftOut, "parts left out", Low, Low},
    {Remark::EqualTurns, "equal turns", Not, Low},
    {Remark::TurnsTogether, "turns together", Not, High},
    {Remark::OtherThread, "other thread", Low, Low},
    {Remark::HeldLock, "held lock", Not, Low},
    {Remark::LineOfAnother, "line of another", Not, Not},
    {Remark::Preempted, "preempted", High, High},
    {Remark::Slept, "slept", Low, Low},
    {Remark::RoundedDown, "rounded down", Low, Either, uncounted},
    {Remark::RoundedUp, "rounded up", High, Either, uncounted},
    {Remark::LinesOfGcc, "lines of gcc", Not, Not},
};
static_assert(std::size(lines) == all_remarks, "one line for each");

void put_direction(Object &fields, const char *number, Moved moved) {
  if (moved != Not) fields.put(number, moved == Low ? "low" : moved == High ? "high" : "either");
}
}  // namespace

const RemarkLine &line_of(Remark remark) { return lines[static_cast<std::size_t>(remark)]; }

Object &put_occurrences(Object &fields, const Occurrences &seen, const Places &places) {
  const std::string &at = places.at(seen.code);
  fields.put("times", seen.times);
  return at.empty() ? fields : fields.put(seen.elsewhere ? "first" : "at", at);
}

std::string remark_in_json(Remark what, const Occurrences &seen, const Places &places) {
  const RemarkLine &line = line_of(what);
  Object fields;
  fields.put("remark", line.name);
  if (line.counted) put_occurrences(fields, seen, places);
  put_direction(fields, "work", line.work);
  put_direction(fields, "span", line.span);
  return fields.end();
}
