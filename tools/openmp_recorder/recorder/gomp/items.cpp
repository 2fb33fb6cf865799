#include "items.hpp"

#include <cstdint>

namespace {
// Only the list itself and depend objects are read, never what an item's address names: the program may have freed it.
struct List {
  explicit List(void **depend) : is_short(number(depend[0])) {
    count = number(depend[is_short ? 0 : 1]);
    written = number(depend[is_short ? 1 : 2]);
    exclusive = is_short ? 0 : number(depend[3]);
    read = is_short ? count - written : number(depend[4]);
    items = depend + (is_short ? 2 : 5);
  }
  bool is_short;
  uintptr_t count, written, exclusive, read;
  void **items;

 private:
  static uintptr_t number(void *of) { return reinterpret_cast<uintptr_t>(of); }
};

ompt_dependence_t item(void *address, ompt_dependence_type_t type) {
  ompt_dependence_t out{};
  out.variable.ptr = address;
  out.dependence_type = type;
  return out;
}

// The address, and a number for its kind.
ompt_dependence_t item_of_object(void *const *object) {
  switch (reinterpret_cast<uintptr_t>(object[1])) {
    case 1: return item(object[0], ompt_dependence_type_in);
    case 4: return item(object[0], ompt_dependence_type_mutexinoutset);
    case 5: return item(object[0], ompt_dependence_type_inoutset);
    default: return item(object[0], ompt_dependence_type_inout);
  }
}
}  // namespace

// In the order of gcc's list: items that write, that exclude each other, that read, and then depend objects.
std::vector<ompt_dependence_t> items_of(void **depend) {
  List list(depend);
  std::vector<ompt_dependence_t> out;
  out.reserve(list.count);
  for (uintptr_t i = 0; i < list.count; i++) {
    void *one = list.items[i];
    if (i < list.written) out.push_back(item(one, ompt_dependence_type_inout));
    else if (i < list.written + list.exclusive) out.push_back(item(one, ompt_dependence_type_mutexinoutset));
    else if (i < list.written + list.exclusive + list.read) out.push_back(item(one, ompt_dependence_type_in));
    else out.push_back(item_of_object(static_cast<void *const *>(one)));
  }
  return out;
}
