#include "names.hpp"

#include <cxxabi.h>

#include <cctype>
#include <cstdlib>
#include <memory>

namespace {
constexpr const char *word = "operator";
constexpr std::size_t length_of_word = 8;

// Of an operator whose name has angles, such as `operator<<` or `operator->`, its characters; else none.
std::size_t operator_at(const std::string &name, std::size_t at) {
  if (name.compare(at, length_of_word, word)) return 0;
  bool is_part_of_a_word = at && (isalnum(static_cast<unsigned char>(name[at - 1])) || name[at - 1] == '_');
  std::size_t end = name.find_first_not_of("<>=-", at + length_of_word);
  if (is_part_of_a_word) return 0;
  return (end == std::string::npos ? name.size() : end) - at;
}

// Behind the end of the arguments that begin here; npos where they do not end.
std::size_t end_of_arguments(const std::string &name, std::size_t at) {
  int open = 0;
  while (at < name.size()) {
    if (std::size_t length = operator_at(name, at)) {
      at += length;
      continue;
    }
    bool is_arrow = name[at] == '>' && name[at - 1] == '-';
    open += name[at] == '<';
    open -= name[at] == '>' && !is_arrow;
    at++;
    if (!open) return at;
  }
  return std::string::npos;
}
}  // namespace

std::string demangled(const std::string &symbol) {
  int status = 0;
  std::unique_ptr<char, void (*)(void *)> name(abi::__cxa_demangle(symbol.c_str(), nullptr, nullptr, &status),
                                               std::free);
  bool is_name = symbol.compare(0, 2, "_Z") == 0 && !status && name;
  return is_name ? std::string(name.get()) : symbol;
}

std::string short_name(const std::string &function) {
  std::string out;
  for (std::size_t at = 0; at < function.size();) {
    std::size_t of_operator = operator_at(function, at);
    if (of_operator || function[at] != '<') {
      std::size_t length = of_operator ? of_operator : 1;
      out += function.substr(at, length);
      at += length;
      continue;
    }
    at = end_of_arguments(function, at);
    if (at == std::string::npos) return function;
    out += "<..>";
  }
  return out;
}
