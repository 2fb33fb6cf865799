#include "check.hpp"

namespace {
int faults = 0;
}

std::vector<Test> &tests() {
  static std::vector<Test> all;
  return all;
}

void fail(const char *file, int line, const std::string &what) {
  std::cerr << file << ":" << line << ": " << what << "\n";
  faults++;
}

int main() {
  int failed = 0;
  for (const Test &test : tests()) {
    int before = faults;
    test.body();
    if (faults == before) continue;
    std::cerr << "failed: " << test.name << "\n";
    failed++;
  }
  std::cout << tests().size() << " tests, " << failed << " failed\n";
  return failed ? 1 : 0;
}
