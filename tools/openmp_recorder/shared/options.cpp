#include "options.hpp"

#include <cstdlib>

#include "notice.hpp"

namespace {
constexpr uint64_t largest = 1000000000000000;

void wrong(const char *name, const char *value, const char *allowed) {
  notice(std::string(name) + "=" + value + " is not understood (" + allowed + "); it is left out");
}

bool read_number(const char *value, uint64_t &into) {
  char *end;
  uint64_t n = strtoull(value, &end, 10);
  if (*value < '0' || *value > '9' || *end || n > largest) return false;
  into = n;
  return true;
}

void unit(Options &chosen) {
  const char *value = getenv("SPANPROF_UNIT");
  if (!value) return;
  std::string name = value;
  uint64_t n = name == "ns" ? 1 : name == "us" ? 1000 : name == "ms" ? 1000000 : 0;
  if ((!n && !read_number(value, n)) || !n || n > 1000000000)
    return wrong("SPANPROF_UNIT", value, "ns, us, ms, or nanoseconds up to 1000000000");
  chosen.unit = static_cast<int64_t>(n);
  chosen.unit_name = name == "ns" || name == "us" || name == "ms" ? name : name + " ns";
}

void flag(const char *name, const char *no, const char *yes, bool &into) {
  const char *value = getenv(name);
  if (!value) return;
  if (std::string(value) == yes) into = true;
  else if (std::string(value) == no) into = false;
  else wrong(name, value, (std::string(no) + " or " + yes).c_str());
}
}  // namespace

RecordingOptions read_recording_options() {
  RecordingOptions chosen;
  if (const char *out = getenv("SPANPROF_OUT")) chosen.out = out;
  flag("SPANPROF_CLOCK", "wall", "cpu", chosen.processor_clock);
  chosen.switches = !getenv("SPANPROF_CLOCK");
  flag("SPANPROF_QUIET", "0", "1", chosen.quiet);
  flag("SPANPROF_TIME_STAMP", "0", "1", chosen.time_stamp);
  flag("SPANPROF_CALL_PATHS", "0", "1", chosen.call_paths);
  return chosen;
}

Options read_options() {
  Options chosen;
  unit(chosen);
  flag("SPANPROF_LINES", "0", "1", chosen.lines);
  if (const char *region = getenv("SPANPROF_REGION")) chosen.one_region = true, chosen.region = region;
  flag("SPANPROF_PARTS", "none", "heavy", chosen.bare_parts);
  flag("SPANPROF_WHOLE", "0", "1", chosen.whole);
  flag("SPANPROF_TIMES", "0", "1", chosen.times);
  return chosen;
}
