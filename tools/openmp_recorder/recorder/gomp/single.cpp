// `single` with `copyprivate`. The runtime's own calls do not tell beforehand which threads will wait in them. So these
// choose the thread by the call for a plain `single`, and wait at a barrier. gcc puts another one behind the construct:
// no thread comes to the next before all have read the data.
#include "here.hpp"
#include "own.hpp"
#include "waits.hpp"

ENTRY void *GOMP_single_copy_start() {
  PASS_ON(GOMP_single_copy_start);
  static const auto is_chosen = reinterpret_cast<bool (*)()>(own_function("GOMP_single_start"));
  // The chosen thread comes to this barrier in `GOMP_single_copy_end`.
  if (is_chosen()) return nullptr;
  wait_for_all(PLACE);
  return *here().copied;
}

ENTRY void GOMP_single_copy_end(void *data) {
  PASS_ON(GOMP_single_copy_end, data);
  Here &own = here();
  if (!own.copied) return;
  *own.copied = data;
  wait_for_all(PLACE);
}
