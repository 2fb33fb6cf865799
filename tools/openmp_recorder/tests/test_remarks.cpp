// Which numbers each remark moves, and in which direction.
#include <set>
#include <string>

#include "remarks.hpp"
#include "source.hpp"
#include "check.hpp"

// Each remark says which number it moves, and in which direction.
TEST(each_remark_moves_a_number_or_says_that_it_does_not) {
  std::set<std::string> names;
  for (size_t i = 0; i < all_remarks; i++) {
    const RemarkLine &line = line_of(static_cast<Remark>(i));
    EXPECT(static_cast<size_t>(line.remark), i);
    EXPECT(names.insert(line.name).second, true);
    bool moves = line.work != Moved::Not || line.span != Moved::Not;
    bool tells_of_places = line.remark == Remark::LineOfAnother || line.remark == Remark::LinesOfGcc;
    EXPECT(moves, !tells_of_places);
  }
}

TEST(a_remark_as_json) {
  Occurrences seen;
  seen.add(nullptr);
  EXPECT(remark_in_json(Remark::Detach, seen, Places()), "{\"remark\": \"detach\", \"times\": 1, \"span\": \"low\"}");
  EXPECT(remark_in_json(Remark::RoundedDown, seen, Places()),
         "{\"remark\": \"rounded down\", \"work\": \"low\", \"span\": \"either\"}");
}

// Where the truth of each is known: what is left out makes less, what is ordered or counted twice makes more.
TEST(the_direction_of_each_remark) {
  constexpr Moved Not = Moved::Not, Low = Moved::Low, High = Moved::High, Either = Moved::Either;
  std::set<Remark> all;
  auto moves = [&](std::initializer_list<Remark> remarks, Moved work, Moved span) {
    all.insert(remarks);
    for (Remark remark : remarks) EXPECT(line_of(remark).work == work && line_of(remark).span == span, true);
  };
  moves({Remark::OneThread, Remark::UnknownItem, Remark::TurnsTogether}, Not, High);
  moves({Remark::MutexInOutSet, Remark::AllMemory, Remark::ItemsLeftOut, Remark::Detach, Remark::UnseenDetach,
         Remark::EqualTurns, Remark::HeldLock},
        Not, Low);
  moves({Remark::Target, Remark::UnseenTarget, Remark::UnseenRuntime, Remark::NestedWaits, Remark::LeftInside,
         Remark::RecordsFull, Remark::Unfinished, Remark::ToldElsewhere, Remark::PartsLeftOut, Remark::OtherThread,
         Remark::Slept},
        Low, Low);
  moves({Remark::ToldLate, Remark::Preempted}, High, High);
  moves({Remark::NestedRegion}, Low, High);
  moves({Remark::Cancel, Remark::WaitsForTurns}, Either, Either);
  moves({Remark::RoundedDown}, Low, Either);
  moves({Remark::RoundedUp, Remark::BetweenTurns}, High, Either);
  moves({Remark::LineOfAnother, Remark::LinesOfGcc}, Not, Not);
  EXPECT(all.size(), all_remarks);
}
