// What an unwind table (.eh_frame) says of one instruction: where its caller's frame begins, and where registers are.
#pragma once
#include <array>
#include <cstdint>

#include "frames.hpp"

namespace frames {
// Bytes of a table, read one after the other. Tables lie in memory that is mapped while their code is on a stack.
// Reads behind the end give 0 and stay at the end: loops over damaged tables finish, and none reads elsewhere.
class Bytes {
 public:
  Bytes(const uint8_t *from, const uint8_t *until) : at(from), end(until) {}
  explicit operator bool() const { return at < end; }
  const uint8_t *here() const { return at; }
  const uint8_t *behind() const { return end; }
  void skip(uint64_t count) { at = count < static_cast<uint64_t>(end - at) ? at + count : end; }
  template <class Number>
  Number read() {
    Number number = 0;
    if (static_cast<uint64_t>(end - at) < sizeof number) return at = end, number;
    __builtin_memcpy(&number, at, sizeof number);
    at += sizeof number;
    return number;
  }
  uint64_t unsigned_leb();
  int64_t signed_leb();
  uint64_t pointer(uint8_t encoding);  // 0 where it is of another form than code addresses have

 private:
  const uint8_t *at, *end;
};

enum class Rule : uint8_t { Same, Undefined, AtOffset, IsOffset, Register, AtExpression, IsExpression };

struct Where {  // small, since rows are kept on the stack of a handler
  Rule rule = Rule::Same;
  uint16_t length = 0;
  int32_t offset = 0;  // from the caller's frame, or the number of a register
  const uint8_t *expression = nullptr;
};

// Some 300 bytes, of which a walk has a few at a time on the stack of a handler.
struct Row {
  Where frame{};  // a register and an offset, or an expression
  unsigned frame_register = stack_pointer;
  std::array<Where, registers> values{};
  bool is_of_signal = false;  // a handler's: what it interrupted is no call
};

// In handlers too, and so are all functions behind it: no memory, no lock, no exception, and little stack.
bool find_row(uint64_t address, Row &row);  // of the instruction there; false where no table has it
}  // namespace frames
