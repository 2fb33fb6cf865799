#include "oracle.hpp"

#include <algorithm>
#include <sstream>
#include <utility>
#include <vector>

namespace {
struct Item {
  std::string type, name;
};

struct OneTask {
  size_t maker, open;  // the open segment, and after its end the last one
  bool undeferred = false;
  std::vector<Item> items;
};

struct Block {
  bool is_task;
  size_t first;  // the task, or the first one that a group could have
};

class Oracle {
 public:
  explicit Oracle(const std::string &text);
  Numbers numbers() const;

 private:
  std::vector<std::string> words;
  size_t next = 0;
  std::vector<int64_t> starts, costs;  // of segments
  std::vector<OneTask> tasks;
  std::vector<size_t> running{0};  // tasks, innermost last
  std::vector<Block> blocks;

  int64_t end(size_t segment) const { return starts[segment] + costs[segment]; }
  size_t segment(int64_t start) {
    starts.push_back(start);
    costs.push_back(0);
    return costs.size() - 1;
  }
  void go_on(int64_t start);
  void statement();
  void begin_task();
  void read_clauses(OneTask &t);
  void end_block();
};

bool conflict(const Item &a, const Item &b) {
  return a.name == b.name && !(a.type == b.type && (a.type == "in" || a.type == "inoutset"));
}

bool conflict(const OneTask &a, const OneTask &b) {
  for (const Item &one : a.items)
    for (const Item &other : b.items)
      if (conflict(one, other)) return true;
  return false;
}

// Words of letters and digits, and braces; other marks divide words.
std::vector<std::string> words_of(const std::string &text) {
  std::vector<std::string> words;
  std::istringstream lines(text);
  for (std::string line; std::getline(lines, line);) {
    std::istringstream rest(line.substr(0, line.find('#')));
    for (std::string word; rest >> word;) words.push_back(word);
  }
  return words;
}

Oracle::Oracle(const std::string &text) : words(words_of(text)) {
  tasks.push_back({0, segment(0), false, {}});
  while (next < words.size()) statement();
}

void Oracle::go_on(int64_t start) {
  OneTask &t = tasks[running.back()];
  t.open = segment(std::max(start, end(t.open)));
}

void Oracle::read_clauses(OneTask &t) {
  std::string type;
  for (; words[next] != "{"; next++) {
    const std::string &word = words[next];
    if (word == "if(0)") t.undeferred = true;
    else if (word.rfind("depend(", 0) == 0) type = word.substr(7, word.size() - 8);
    else t.items.push_back({type, word.substr(0, word.size() - 1)});
  }
  next++;
}

void Oracle::begin_task() {
  size_t maker = running.back();
  OneTask t{maker, 0, false, {}};
  read_clauses(t);
  int64_t start = end(tasks[maker].open);
  for (size_t i = 1; i < tasks.size(); i++)
    if (tasks[i].maker == maker && conflict(tasks[i], t)) start = std::max(start, end(tasks[i].open));
  t.open = segment(start);
  tasks.push_back(t);
  running.push_back(tasks.size() - 1);
  blocks.push_back({true, tasks.size() - 1});
}

void Oracle::end_block() {
  Block block = blocks.back();
  blocks.pop_back();
  int64_t start = 0;
  if (block.is_task) {
    running.pop_back();
    const OneTask &t = tasks[block.first];
    if (t.undeferred) start = end(t.open);
  } else {
    for (size_t i = block.first; i < tasks.size(); i++) start = std::max(start, end(tasks[i].open));
  }
  go_on(start);
}

void Oracle::statement() {
  std::string word = words[next++];
  if (word == "work") costs[tasks[running.back()].open] += std::stoll(words[next++]);
  if (word == "task") begin_task();
  if (word == "taskgroup") blocks.push_back({false, tasks.size()}), next++;
  if (word == "}") end_block();
  if (word != "taskwait") return;
  int64_t start = 0;
  for (size_t i = 1; i < tasks.size(); i++)
    if (tasks[i].maker == running.back()) start = std::max(start, end(tasks[i].open));
  go_on(start);
}

Numbers Oracle::numbers() const {
  Numbers out;
  out.tasks = static_cast<int64_t>(tasks.size()) - 1;
  for (size_t i = 0; i < costs.size(); i++) {
    out.work += costs[i];
    out.span = std::max(out.span, end(i));
  }
  return out;
}
}  // namespace

Numbers numbers_of(const std::string &text) { return Oracle(text).numbers(); }
