// A set of numbers that lie close together.
#pragma once
#include <bitset>
#include <cstdint>
#include <unordered_map>

class Numbers {
 public:
  bool has(uint32_t number) const {
    auto page = pages.find(number / in_page);
    return page != pages.end() && page->second[number % in_page];
  }
  void add(uint32_t number) { pages[number / in_page][number % in_page] = true; }

 private:
  static constexpr uint32_t in_page = 512;
  std::unordered_map<uint32_t, std::bitset<in_page>> pages;
};
