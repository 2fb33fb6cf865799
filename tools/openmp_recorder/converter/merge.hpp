// The records of all threads in their common order.
#pragma once
#include <vector>

#include "records.hpp"

class InOrder {
 public:
  explicit InOrder(const std::vector<Records *> &threads);
  const Record *next();  // null after the last
  const Log &log() const { return current.of->log; }

 private:
  struct Next {
    const Record *record = nullptr;
    Records *of = nullptr;
    bool operator<(const Next &other) const {
      return record->order > other.record->order;
    }  // the least is the top of the heap
  };
  std::vector<Next> others;  // a heap, without the thread which is read
  Next current;

  void change_thread();
};
