#include "lines.hpp"

#include "recent.hpp"
#include "stretches.hpp"

namespace {
Constructs constructs_of(const Region &region) {
  Constructs found;
  if (region.before) found = region.before->constructs;
  found.add(region);
  return found;
}

std::set<std::string> lines_of(const std::set<const void *> &codes, const Places &places) {
  std::set<std::string> lines;
  for (const void *code : codes)
    if (std::string line = places.at(code); !line.empty()) lines.insert(line);
  return lines;
}

bool begins_construct(const void *call, const Places &places) {
  return places.modules() && places.modules()->begins_construct(call);
}

bool is_of_gcc(const void *place, const Places &places) {
  const void *call = places.call_at(place);
  const ModuleOfRun *module = places.modules() ? places.modules()->of(call) : nullptr;
  return module && module->is_optimised_by_gcc() && !begins_construct(call, places);
}

// What gcc calls of the runtime in optimised code has the line of a statement before the construct, as often as not.
void remark_lines_of_gcc(Region &region, const Constructs &all, const Places &places) {
  Occurrences seen;
  for (const auto *codes : {&all.tasks, &all.waits})
    for (const void *code : *codes)
      if (is_of_gcc(code, places)) seen.add(code);
  if (seen.times) region.remarks[Remark::LinesOfGcc] = seen;
}
}  // namespace

void Constructs::add(const Region &part) {
  CodesMet of_tasks(tasks), of_waits(waits);
  for (const Task &t : part.tasks) {
    if (!t.part && !t.of_loop) of_tasks.add(t.code);
    for (const Step &step : t.steps)
      if (step.kind == Kind::Wait) of_waits.add(step.code());
  }
}

// No `task` or `taskwait` stands on the line of its region, and no `taskwait` on a task's. A call of the runtime that
// is its function's last may be a jump: then the place is the one after the call of that function.
void remark_lines(Region &region, const Places &places) {
  Constructs all = constructs_of(region);
  std::set<std::string> of_tasks = lines_of(all.tasks, places);
  const std::string &of_region = places.at(region.code);
  Occurrences seen;
  auto look_at = [&](const void *code, bool is_wait) {
    const std::string &line = places.at(code);
    bool shared = !line.empty() && (line == of_region || (is_wait && of_tasks.count(line)));
    const void *call = places.call_at(code);
    if (begins_construct(call, places)) return;
    if (shared || (places.modules() && !places.modules()->follows_call_of_runtime(call))) seen.add(code);
  };
  for (const void *code : all.tasks) look_at(code, false);
  for (const void *code : all.waits) look_at(code, true);
  if (seen.times) region.remarks[Remark::LineOfAnother] = seen;
  else remark_lines_of_gcc(region, all, places);
}
