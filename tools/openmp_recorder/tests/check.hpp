// A test is a function that TEST names; EXPECT compares what it finds with what must be.
#pragma once
#include <iostream>
#include <string>
#include <vector>

struct Test {
  const char *name;
  void (*body)();
};

std::vector<Test> &tests();
void fail(const char *file, int line, const std::string &what);

struct Listed {
  Listed(const char *name, void (*body)()) { tests().push_back({name, body}); }
};

#define TEST(name)                          \
  static void name();                       \
  static Listed listed_##name(#name, name); \
  static void name()

inline std::string quoted(const std::string &value) { return "`" + value + "`"; }
inline std::string quoted(const char *value) { return quoted(std::string(value)); }
template <class Number>
std::string quoted(Number value) {
  return std::to_string(value);
}

template <class Found, class Wanted>
void expect(const char *file, int line, const Found &found, const Wanted &wanted) {
  if (!(found == wanted)) fail(file, line, quoted(found) + " where " + quoted(wanted) + " must be");
}

#define EXPECT(found, wanted) expect(__FILE__, __LINE__, found, wanted)
#define EXPECT_PART(whole, part) \
  if ((whole).find(part) == std::string::npos) fail(__FILE__, __LINE__, quoted(whole) + " has no " + quoted(part))
