// Chunks of loops as tasks: a chunk of k turns is k pieces of its cost, since on more threads it would be another.
#pragma once
#include <vector>

#include "run.hpp"

// Turns and short chunks that together cost less than a microsecond, or than a unit, are one piece. Longer pieces are
// taken where the text fits the ten commands then and its span is nearly the same, or where there would be more than
// 131,072, which take longer to analyse than most programs run. The chunks' region is added up, and is so afterwards.
void choose_pieces(WholeProgram &whole, int64_t unit);

// Of chunks from one to before another, whose tasks are added up.
void measure_chunks(WholeProgram &whole, size_t first, size_t end);
void put_finest_pieces(WholeProgram &whole, size_t first, size_t end);  // one for each turn
// As chosen, in a stretch that was let go; its tasks by their numbers, and its events.
void put_pieces(WholeProgram &whole, size_t stretch, const std::vector<Task *> &tasks, EventList &events);
