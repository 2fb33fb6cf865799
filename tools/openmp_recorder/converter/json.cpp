#include "json.hpp"

#include <cstdio>

std::string in_json(std::string_view words) {
  std::string out = "\"";
  for (char c : words) {
    auto code = static_cast<unsigned char>(c);
    char escaped[8];
    if (c == '"' || c == '\\') out += '\\', out += c;
    else if (code >= 32) out += c;
    else snprintf(escaped, sizeof escaped, "\\u%04x", code), out += escaped;
  }
  return out + "\"";
}

Object &Object::put_bare(std::string_view name, std::string_view json) {
  if (!fields.empty()) fields += ", ";
  fields += in_json(name) + ": ";
  fields += json;
  return *this;
}
