// Tasks by the numbers that the recorder gave them, which grow as the run goes on: what is forgotten takes no memory.
#pragma once
#include <array>
#include <cstdint>
#include <memory>
#include <vector>

#include "table_memory.hpp"

struct Task;

class TaskNumbers {
 public:
  Task *find(uint32_t number) const {
    uint32_t page = number / in_page;
    return page < pages.size() && pages[page] ? pages[page]->tasks[number % in_page] : nullptr;
  }
  void put(uint32_t number, Task *task) {
    uint32_t at = number / in_page;
    if (at >= pages.size()) pages.resize(at + 1);
    std::unique_ptr<Page> &page = pages[at];
    if (!page) {
      if (!task) return;
      page = std::make_unique<Page>();
    }
    Task *&place = page->tasks[number % in_page];
    page->known += (task != nullptr) - (place != nullptr);
    place = task;
    if (!page->known) page.reset();
  }

 private:
  static constexpr uint32_t in_page = 1024;  // as many as a thread takes at once
  struct Page {
    uint32_t known = 0;
    std::array<Task *, in_page> tasks{};
    static void *operator new(std::size_t bytes) { return table_memory::get(bytes); }
    static void operator delete(void *page, std::size_t bytes) {
      table_memory::give_back(page, bytes);
      table_memory::stay_within();
    }
  };
  std::vector<std::unique_ptr<Page>> pages;
};
