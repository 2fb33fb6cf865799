#include "logged_paths.hpp"

#include <cstdlib>
#include <fstream>

#include "log_damage.hpp"
#include "log_form.hpp"

namespace {
constexpr size_t most_digits = 12;

// An address of a program, or 0 where it is none.
uint64_t address_in(const std::string &word) {
  bool is_number = !word.empty() && word.find_first_not_of("0123456789abcdef") == std::string::npos;
  if (!is_number || word.size() > most_digits) return 0;
  uint64_t address = std::strtoull(word.c_str(), nullptr, 16);
  return address & log_form::path_bit ? 0 : address;
}
}  // namespace

void LoggedPaths::add(const std::string &line) {
  auto refuse = [&] { throw DamagedLog("paths is damaged in line " + std::to_string(paths.size() + 1)); };
  Calls calls;
  for (size_t at = 0, end = 0; end < line.size(); at = end + 1) {
    end = std::min(line.find(' ', at), line.size());
    uint64_t address = address_in(line.substr(at, end - at));
    if (!address) refuse();
    calls.push_back(reinterpret_cast<const void *>(address));
  }
  if (calls.empty() || calls.size() > log_form::most_calls) refuse();
  if (paths.size() == log_form::most_paths) refuse();
  paths.push_back(std::move(calls));
}

// Where there was no room for all of a last line, no record names it.
void LoggedPaths::read(const std::string &path) {
  std::ifstream lines(path);
  for (std::string line; std::getline(lines, line) && !lines.eof();) add(line);
}
