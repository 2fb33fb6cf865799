// The program text of a region.
#pragma once
#include <functional>
#include <string>
#include <string_view>
#include <vector>

#include "run.hpp"
#include "source.hpp"

class SegmentTable;

struct Style {
  int64_t unit = 1;  // nanoseconds
  bool large = false;  // lines are not indented
  bool numbered = true;  // segments get the numbers that the text gives them
};

using Taker = std::function<void(std::string_view piece)>;

std::vector<const void *> codes_of(const Region &region);  // whose places stand in its text
int64_t work_in_units(const Region &region, int64_t unit);  // as the text has it, rounded line by line
// Of a part of the text that is written, with the numbers of its first segment and behind its last.
using PartTaker = std::function<void(Region &part, uint32_t first, uint32_t end)>;
// Piece by piece, and the table of its segments where one is wanted.
void print_program(Region &region, const Style &style, const Places &places, const Taker &taker,
                   SegmentTable *table = nullptr, const PartTaker &behind = nullptr);
