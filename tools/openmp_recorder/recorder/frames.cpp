#include "frames.hpp"

#include "unwind_rows.hpp"

namespace frames {
namespace {
class Walk {
 public:
  Walk(const State &from, const Stack &within) : state(from), stack(within) {}
  bool step(bool is_call);
  uint64_t address() const { return state.values[instruction]; }
  bool is_of_signal = false;  // the caller was interrupted, and called nothing

 private:
  State state;
  const Stack &stack;

  bool read(uint64_t at, uint64_t &value) const;
  bool evaluate(const Where &where, uint64_t first, bool has_first, uint64_t &value) const;
  bool calculate(uint8_t code, Bytes &program, uint64_t *top, unsigned &count) const;
  bool frame_of(const Row &row, uint64_t &frame) const;
  bool value_of(const Where &where, unsigned number, uint64_t frame, uint64_t &value) const;
};

// The only place that follows an address of the stack: a table can name any, so each is compared with the bounds.
bool Walk::read(uint64_t at, uint64_t &value) const {
  // A thread on a stack that is not its own has the empty one, from 0 to 0.
  if (at % sizeof value || at < stack.lowest || stack.end < sizeof value || at > stack.end - sizeof value) return false;
  value = *reinterpret_cast<const uint64_t *>(at);
  return true;
}

// Fixed, since the handler may not allocate. One entry is free whenever `calculate` runs.
constexpr unsigned most_values = 8;  // of an expression

// Those that compilers write for stacks that they align, and linkers for calls of other modules.
bool Walk::calculate(uint8_t code, Bytes &program, uint64_t *values, unsigned &count) const {
  constexpr uint8_t first_number = 0x30, first_register = 0x70, behind_registers = 0x70 + instruction + 1;
  if (code >= first_register && code < behind_registers) {
    values[count++] = state.values[code - first_register] + static_cast<uint64_t>(program.signed_leb());
    return true;
  }
  if (code >= first_number && code < first_number + 32) return values[count++] = code - first_number, true;
  if (code == 0x23) return count && (values[count - 1] += program.unsigned_leb(), true);
  if (code == 0x06) return count && read(values[count - 1], values[count - 1]);
  if (count < 2) return false;
  uint64_t right = values[--count], &left = values[count - 1];
  // Codes of DWARF (DW_OP_and, minus, plus, shl, ge): an operation that is not here ends the walk.
  switch (code) {
    case 0x1a: left &= right; return true;
    case 0x1c: left -= right; return true;
    case 0x22: left += right; return true;
    case 0x24: left = right < 64 ? left << right : 0; return true;
    case 0x2a: left = static_cast<int64_t>(left) >= static_cast<int64_t>(right); return true;
    default: return false;
  }
}

bool Walk::evaluate(const Where &where, uint64_t first, bool has_first, uint64_t &value) const {
  uint64_t values[most_values] = {first};
  unsigned count = has_first;
  for (Bytes program(where.expression, where.expression + where.length); program;)
    if (count == most_values || !calculate(program.read<uint8_t>(), program, values, count)) return false;
  if (!count) return false;
  value = values[count - 1];
  return true;
}

bool Walk::frame_of(const Row &row, uint64_t &frame) const {
  if (row.frame.rule == Rule::IsExpression) return evaluate(row.frame, 0, false, frame);
  if (row.frame.rule != Rule::IsOffset || row.frame_register >= registers) return false;
  frame = state.values[row.frame_register] + static_cast<uint64_t>(int64_t{row.frame.offset});
  return true;
}

bool Walk::value_of(const Where &where, unsigned number, uint64_t frame, uint64_t &value) const {
  uint64_t at = frame + static_cast<uint64_t>(int64_t{where.offset});
  switch (where.rule) {
    case Rule::Same: value = state.values[number]; return true;
    case Rule::AtOffset: return read(at, value);
    case Rule::IsOffset: value = at; return true;
    case Rule::Register:
      if (where.offset < 0 || where.offset >= static_cast<int32_t>(registers)) return false;
      value = state.values[static_cast<unsigned>(where.offset)];
      return true;
    case Rule::AtExpression: return evaluate(where, frame, true, at) && read(at, value);
    case Rule::IsExpression: return evaluate(where, frame, true, value);
    default: return false;
  }
}

// To the caller; false where it is not known. Each frame lies above the one that it called.
bool Walk::step(bool is_call) {
  Row row;
  uint64_t frame = 0;
  if (!find_row(address() - is_call, row) || !frame_of(row, frame)) return false;
  // So each step goes up, and the walk ends even where tables are wrong.
  bool is_above = frame > state.values[stack_pointer] && frame <= stack.end;
  if (!is_above || row.values[instruction].rule == Rule::Same) return false;
  State next = state;
  for (unsigned i = 0; i < registers; i++)
    if (!value_of(row.values[i], i, frame, next.values[i])) {
      if (i == instruction) return false;
      // A lost register ends the walk only once a frame depends on it: from 0 no rule leads above.
      next.values[i] = 0;
    }
  next.values[stack_pointer] = frame;
  // Only now: a step that fails leaves the frame as it was.
  state = next;
  is_of_signal = row.is_of_signal;
  return address();
}
}  // namespace

unsigned walk(State state, const Stack &stack, uint64_t *out, unsigned most) {
  if (!most) return 0;
  Walk at(state, stack);
  unsigned count = 0;
  bool is_call = false;
  do {
    out[count++] = at.address();
    // The address behind a call may belong to the next function, where the called one never returns: so look one byte
    // before. What a signal interrupted is no call, and may be a function's first instruction.
    is_call = count > 1 && !at.is_of_signal;
  } while (count < most && at.step(is_call));
  return count;
}
}  // namespace frames
