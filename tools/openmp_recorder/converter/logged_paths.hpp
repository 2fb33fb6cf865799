// The call paths that a log lists, with the addresses that its records name them by.
#pragma once
#include <cstdint>
#include <string>
#include <vector>

using Calls = std::vector<const void *>;  // places of calls, from the creating one outwards

class LoggedPaths {
 public:
  void read(const std::string &path);  // what no recorder writes ends in an exception
  const std::vector<Calls> &all() const { return paths; }  // the first has the number 1
  bool has(uint64_t number) const { return number && number <= paths.size(); }
  const void *creating(uint64_t number) const { return paths[number - 1].front(); }  // call, of a path that is there

 private:
  std::vector<Calls> paths;
  void add(const std::string &line);
};
