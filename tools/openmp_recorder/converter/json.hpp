// Objects of JSON, on one line.
#pragma once
#include <cstdint>
#include <string>
#include <string_view>

std::string in_json(std::string_view words);  // with quotes

class Object {
 public:
  Object &put(std::string_view name, std::string_view value) { return put_bare(name, in_json(value)); }
  Object &put(std::string_view name, const char *value) { return put(name, std::string_view(value)); }
  Object &put(std::string_view name, const std::string &value) { return put(name, std::string_view(value)); }
  Object &put(std::string_view name, bool value) { return put_bare(name, value ? "true" : "false"); }
  template <typename Number>
  Object &put(std::string_view name, Number value) {
    return put_bare(name, std::to_string(value));
  }
  Object &put_bare(std::string_view name, std::string_view json);  // as it stands
  std::string end() const { return "{" + fields + "}"; }

 private:
  std::string fields;
};
