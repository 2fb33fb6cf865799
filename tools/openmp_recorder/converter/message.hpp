// What the converter reports: a line of JSON on standard output for each thing. record/messages.py makes the sentences
// that people read.
#pragma once
#include "json.hpp"

class Message : public Object {
 public:
  explicit Message(std::string_view what) { put("message", what); }
  Message(const Message &) = delete;
  ~Message();
};
