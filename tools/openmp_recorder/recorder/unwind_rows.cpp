#include "unwind_rows.hpp"

// Of glibc since 2.35: it takes no lock, so a handler of a signal may call it.
// As glibc lays it out (`struct dl_find_object`), with spare room at the end. Weak: where the system lacks the function
// there are no samples; `dl_iterate_phdr`, which takes the loader's lock, is no substitute in a handler.
struct FoundObject {
  unsigned long long flags;
  void *first, *end;
  void *link_map;
  void *tables;  // PT_GNU_EH_FRAME
  unsigned long long more[7];
};
extern "C" __attribute__((weak)) int _dl_find_object(void *, FoundObject *);

namespace frames {
uint64_t Bytes::unsigned_leb() {
  uint64_t number = 0;
  for (unsigned shift = 0; *this; shift += 7) {
    auto byte = read<uint8_t>();
    if (shift < 64) number |= uint64_t{byte & 127U} << shift;
    if (byte < 128) break;
  }
  return number;
}

int64_t Bytes::signed_leb() {
  uint64_t number = 0;
  unsigned shift = 0;
  uint8_t byte = 128;
  for (; *this && byte & 128; shift += 7) {
    byte = read<uint8_t>();
    if (shift < 64) number |= uint64_t{byte & 127U} << shift;
  }
  if (shift < 64 && byte & 64) number |= ~uint64_t{0} << shift;
  return static_cast<int64_t>(number);
}

uint64_t Bytes::pointer(uint8_t encoding) {
  constexpr uint8_t absolute = 0, to_itself = 0x10, four = 3, eight = 4, four_signed = 11, eight_signed = 12;
  auto own = reinterpret_cast<uint64_t>(at);
  uint64_t value = 0;
  switch (encoding & 15) {
    case absolute:
    case eight:
    case eight_signed: value = read<uint64_t>(); break;
    case four: value = read<uint32_t>(); break;
    case four_signed: value = static_cast<uint64_t>(int64_t{read<int32_t>()}); break;
    default: return 0;
  }
  switch (encoding & 0xf0) {
    case absolute: return value;
    case to_itself: return value + own;
    default: return 0;
  }
}

namespace {
// What the entries of several functions have in common.
struct Common {
  uint64_t code_unit = 1;
  int64_t data_unit = 1;
  uint8_t pointers = 0;
  bool is_of_signal = false, has_length = false;
  Bytes program{nullptr, nullptr};
};

// One entry of a table, from behind its length on; its end is nearer than what may be read.
// The 64-bit form of the length is read as an empty entry, which ends the walk.
Bytes entry_at(const uint8_t *at) {
  constexpr uint32_t is_long = 0xffffffff;
  Bytes length(at, at + sizeof(uint32_t));
  auto bytes = length.read<uint32_t>();
  if (bytes == is_long) bytes = 0;
  return {at + sizeof bytes, at + sizeof bytes + bytes};
}

bool read_letters(const char *letters, Bytes &more, Common &common) {
  if (*letters == 'z') common.has_length = true, more.unsigned_leb(), letters++;
  else if (*letters) return false;
  for (; *letters; letters++) {
    switch (*letters) {
      case 'R': common.pointers = more.read<uint8_t>(); break;
      // The value is skipped and never followed: it may be an address that the loader fills in (the bit 0x80).
      case 'P': {
        auto encoding = more.read<uint8_t>();
        more.pointer(encoding & 0x7f);
        break;
      }
      case 'L': more.skip(1); break;
      case 'S': common.is_of_signal = true; break;
      case 'B': break;
      default: return false;
    }
  }
  return true;
}

bool read_common(const uint8_t *at, Common &common) {
  Bytes entry = entry_at(at);
  if (entry.read<uint32_t>() != 0) return false;
  auto version = entry.read<uint8_t>();
  if (version != 1 && version != 3) return false;
  auto *letters = reinterpret_cast<const char *>(entry.here());
  while (entry && entry.read<uint8_t>()) {
  }
  common.code_unit = entry.unsigned_leb();
  common.data_unit = entry.signed_leb();
  uint64_t returns = version == 1 ? entry.read<uint8_t>() : entry.unsigned_leb();
  Bytes more = entry;
  // Letters that are not known change the meaning of what follows, so the entry is refused.
  if (returns != instruction || !read_letters(letters, more, common)) return false;
  if (common.has_length) entry.skip(entry.unsigned_leb());
  common.program = entry;
  return true;
}

// What the instructions of both entries say, up to an address.
// It ends: each step takes at least one byte of a program whose end is known.
class Instructions {
 public:
  Instructions(const Common &all, uint64_t begin, uint64_t until) : common(all), at(begin), address(until) {}
  bool run(Bytes program, Row &row);
  void keep(const Row &row) { first = row; }

 private:
  // A fixed number: a row has 17 rules, and these lie on the stack of a handler.
  static constexpr unsigned most_kept = 2;
  const Common &common;
  uint64_t at, address;
  Row first;
  std::array<Row, most_kept> kept;
  unsigned count = 0;

  bool advance(uint64_t units) {
    at += units * common.code_unit;
    return at <= address;
  }
  static void set(Row &row, uint64_t of, const Where &where) {
    // Vector registers have larger numbers: no caller's address depends on them.
    if (of < registers) row.values[of] = where;
  }
  int32_t scaled(int64_t offset) const { return static_cast<int32_t>(offset * common.data_unit); }
  static int32_t number(Bytes &program) { return static_cast<int32_t>(program.unsigned_leb()); }
  static Where expression(Rule rule, Bytes &program) {
    uint64_t length = program.unsigned_leb();
    const uint8_t *begin = program.here();
    program.skip(length);
    return {rule, static_cast<uint16_t>(program.here() - begin), 0, begin};
  }
  bool run_one(uint8_t code, Bytes &program, Row &row);
  bool run_of_frame(uint8_t code, Bytes &program, Row &row);
  bool run_of_values(uint8_t code, Bytes &program, Row &row);
  bool run_of_rows(uint8_t code, Row &row);
};

// Instructions beyond the address are not run: there the row is whole.
bool Instructions::run(Bytes program, Row &row) {
  while (program) {
    auto code = program.read<uint8_t>();
    uint8_t low = code & 63;
    switch (code >> 6) {
      case 1:
        if (!advance(low)) return true;
        break;
      case 2: set(row, low, {Rule::AtOffset, 0, scaled(number(program))}); break;
      case 3: set(row, low, first.values[low < registers ? low : 0]); break;
      default:
        if (!run_one(code, program, row)) return at > address;
    }
  }
  return true;
}

// False where it leads beyond the address, or is not known.
bool Instructions::run_one(uint8_t code, Bytes &program, Row &row) {
  switch (code) {
    case 0x00: return true;
    case 0x02: return advance(program.read<uint8_t>());
    case 0x03: return advance(program.read<uint16_t>());
    case 0x04: return advance(program.read<uint32_t>());
    // DW_CFA_GNU_args_size, which no rule needs.
    case 0x2e: return program.unsigned_leb(), true;
    default: return run_of_rows(code, row) || run_of_frame(code, program, row) || run_of_values(code, program, row);
  }
}

// DW_CFA_remember_state and restore_state. More rows than there is room for end the walk.
bool Instructions::run_of_rows(uint8_t code, Row &row) {
  constexpr uint8_t keep_row = 0x0a, back_to_row = 0x0b;
  if (code == keep_row && count < most_kept) return kept[count++] = row, true;
  if (code == back_to_row && count) return row = kept[--count], true;
  return false;
}

// DW_CFA_def_cfa and its forms.
bool Instructions::run_of_frame(uint8_t code, Bytes &program, Row &row) {
  Where &frame = row.frame;
  switch (code) {
    case 0x0c:
      row.frame_register = static_cast<unsigned>(program.unsigned_leb());
      frame = {Rule::IsOffset, 0, number(program)};
      return true;
    case 0x0d:
      row.frame_register = static_cast<unsigned>(program.unsigned_leb());
      frame.rule = Rule::IsOffset;
      return true;
    case 0x0e: frame = {Rule::IsOffset, 0, number(program)}; return true;
    case 0x0f: frame = expression(Rule::IsExpression, program); return true;
    case 0x12:
      row.frame_register = static_cast<unsigned>(program.unsigned_leb());
      frame = {Rule::IsOffset, 0, scaled(program.signed_leb())};
      return true;
    case 0x13: frame = {Rule::IsOffset, 0, scaled(program.signed_leb())}; return true;
    default: return false;
  }
}

// The rules of one register: DW_CFA_offset_extended and those that follow.
bool Instructions::run_of_values(uint8_t code, Bytes &program, Row &row) {
  if (code < 0x05 || code > 0x16) return false;
  uint64_t of = program.unsigned_leb();
  switch (code) {
    case 0x05: set(row, of, {Rule::AtOffset, 0, scaled(number(program))}); return true;
    case 0x06: set(row, of, first.values[of < registers ? of : 0]); return true;
    case 0x07: set(row, of, {Rule::Undefined}); return true;
    case 0x08: set(row, of, {Rule::Same}); return true;
    case 0x09: set(row, of, {Rule::Register, 0, number(program)}); return true;
    case 0x10: set(row, of, expression(Rule::AtExpression, program)); return true;
    case 0x11: set(row, of, {Rule::AtOffset, 0, scaled(program.signed_leb())}); return true;
    case 0x14: set(row, of, {Rule::IsOffset, 0, scaled(number(program))}); return true;
    case 0x15: set(row, of, {Rule::IsOffset, 0, scaled(program.signed_leb())}); return true;
    case 0x16: set(row, of, expression(Rule::IsExpression, program)); return true;
    default: return false;
  }
}

// The entry of the function with this address, by the sorted table that linkers write before .eh_frame; null if none.
// Only the form with a sorted table of 32-bit offsets from its own start is read: it alone can be searched by halves.
const uint8_t *find_entry(const uint8_t *tables, uint64_t address) {
  constexpr uint8_t version = 1, count_form = 0x03, table_form = 0x3b;
  struct Line {
    int32_t code, entry;
  };
  if (tables[0] != version || tables[2] != count_form || tables[3] != table_form) return nullptr;
  Bytes head(tables + 4, tables + 24);
  head.pointer(tables[1]);
  auto count = head.read<uint32_t>();
  auto *lines = reinterpret_cast<const Line *>(head.here());
  auto offset = static_cast<int64_t>(address - reinterpret_cast<uint64_t>(tables));
  uint32_t low = 0, high = count;  // lines before `low` begin at the address at the latest
  while (low < high) {
    uint32_t middle = low + (high - low) / 2;
    if (lines[middle].code <= offset) low = middle + 1;
    else high = middle;
  }
  return low ? tables + lines[low - 1].entry : nullptr;
}

// Tables are those of a mapped module, which the loader keeps mapped while its code is on a stack.
bool read_entry(const uint8_t *at, uint64_t address, Row &row) {
  Bytes entry = entry_at(at);
  const uint8_t *own = entry.here();
  auto back = entry.read<uint32_t>();
  Common common;
  if (!back || !read_common(own - back, common)) return false;
  uint64_t begin = entry.pointer(common.pointers), length = entry.pointer(common.pointers & 15);
  // The table is sorted by begins alone: behind the last function of a module, or in a gap, there is no row.
  if (!begin || address - begin >= length) return false;
  if (common.has_length) entry.skip(entry.unsigned_leb());
  row.is_of_signal = common.is_of_signal;
  Instructions all(common, begin, ~uint64_t{0});
  if (!all.run(common.program, row)) return false;
  Instructions own_ones(common, begin, address);
  own_ones.keep(row);
  return own_ones.run(entry, row);
}
}  // namespace

bool are_known() { return _dl_find_object; }

bool find_row(uint64_t address, Row &row) {
  FoundObject found{};
  if (!_dl_find_object || _dl_find_object(reinterpret_cast<void *>(address), &found) || !found.tables) return false;
  const uint8_t *entry = find_entry(static_cast<const uint8_t *>(found.tables), address);
  return entry && read_entry(entry, address, row);
}
}  // namespace frames
