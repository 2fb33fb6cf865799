#include "events.hpp"

#include <algorithm>

#include "piece.hpp"

namespace {
uint32_t number_of(const Event &event, const Region &region) {
  return event.taken_back ? none : number_in_text(*event.task, event.segment, region);
}

// The pieces of a chunk, one after the other; their part makes all of them where it makes the first. That is before the
// chunk begins, where it is not the first of its loop.
size_t divide_among_pieces(const Task &chunk, uint32_t first, Column<SegmentTime> &times) {
  SegmentTime all = times[first];
  int64_t took = all.end - all.begin, pieces = chunk.pieces, begin = all.begin, made = times[first - 1].end;
  for (int64_t i = 0; i < pieces; i++) {
    int64_t end = all.begin + took / pieces * (i + 1) + took % pieces * (i + 1) / pieces;
    SegmentTime &piece = times[first + 2 * static_cast<size_t>(i)];
    piece = {all.worker, begin, end};
    begin = end;
    if (i + 1 < pieces) times[first + 2 * static_cast<size_t>(i) + 1] = {all.worker, made, made};
  }
  return 2 * static_cast<size_t>(pieces) - 1;
}

constexpr size_t longest_piece = 1 << 16;

void put_row(Piece &piece, uint64_t segment, const SegmentTime &time) {
  piece.number(segment);
  piece.put(" ");
  piece.number(time.worker);
  piece.put(" ");
  piece.number(time.begin);
  piece.put(" ");
  piece.number(time.end);
  piece.put("\n");
}
}  // namespace

void Events::take(const Region &region, const Region &part, uint32_t begin, uint32_t end) {
  put_away(begin - first);
  first = begin;
  times.clear();
  times.resize(end - begin, {});
  for (auto &event : part.events) {
    uint32_t number = number_of(event, region);
    if (number == none) continue;
    unsigned worker = numbers.try_emplace(event.worker, numbers.size()).first->second;
    SegmentTime &time = times[number - first];
    time.worker = worker;
    int64_t at = std::max<int64_t>(event.at - region.time.begin, 0);  // records of a damaged log go back
    if (event.start) {
      time.begin = at;
      continue;
    }
    time.end = std::max(at, time.begin);
    finished += event.task->pieces > 1 ? divide_among_pieces(*event.task, number - first, times) : 1;
  }
}

// So many of the part before; the next one begins with its last segment.
void Events::put_away(uint32_t count) {
  if (!count) return;
  if (!file) file = std::make_unique<NamelessFile>(beside);
  for (uint32_t s = 0; s < count; s++) last = std::max(last, times[s].end);
  put_rows(count, [&](std::string_view rows) {
    file->write(rows.data(), rows.size());
    in_file += rows.size();
  });
}

void Events::put_rows(size_t count, const Taker &taker) {
  Piece piece;
  for (size_t s = 0; s < count; s++) {
    put_row(piece, first + s, times[s]);
    if (piece.size() < longest_piece) continue;
    taker(piece.words());
    piece.clear();
    table_memory::stay_within();
  }
  taker(piece.words());
}

void Events::print(const Region &region, const Taker &taker) {
  int64_t end = std::max(last, region.time.end - region.time.begin);
  for (size_t s = 0; s < times.size(); s++) {
    end = std::max(end, times[s].end);
    if (s % longest_piece == 0) table_memory::stay_within();
  }
  size_t threads = std::max<size_t>(region.threads, workers());
  taker("times " + std::to_string(threads) + " 0 " + std::to_string(end) + "\n");
  if (file) file->go_to(0);
  std::string bytes;
  for (size_t left = in_file; left; left -= bytes.size()) {
    bytes.resize(std::min(left, longest_piece));
    file->read(bytes.data(), bytes.size());
    taker(bytes);
  }
  put_rows(times.size(), taker);
}
