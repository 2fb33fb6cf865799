#include "merge.hpp"

#include <algorithm>

InOrder::InOrder(const std::vector<Records *> &threads) {
  for (Records *of : threads)
    if (const Record *first = of->next()) others.push_back({first, of});
  std::make_heap(others.begin(), others.end());
}

void InOrder::change_thread() {
  std::pop_heap(others.begin(), others.end());
  std::swap(current, others.back());
  if (others.back().record) std::push_heap(others.begin(), others.end());
  else others.pop_back();
}

const Record *InOrder::next() {
  if (current.record) current.record = current.of->next();
  if (!others.empty() && (!current.record || current < others.front())) change_thread();
  return current.record;
}
