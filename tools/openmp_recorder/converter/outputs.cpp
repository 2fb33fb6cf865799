#include "outputs.hpp"

#include <algorithm>
#include <optional>

#include "barriers.hpp"
#include "chosen.hpp"
#include "compose.hpp"
#include "delays.hpp"
#include "events.hpp"
#include "files.hpp"
#include "head.hpp"
#include "lines.hpp"
#include "lock_table.hpp"
#include "region_table.hpp"
#include "sampled_calls.hpp"
#include "segment_table.hpp"
#include "size.hpp"
#include "span.hpp"
#include "stretches.hpp"
#include "message.hpp"
#include "program_text.hpp"
#include "whole_program.hpp"

namespace {
void report_excess(const std::string &file, const Excess &excess) {
  Message line("too large");
  line.put("file", file).put("what", excess.what).put("has", excess.has).put("takes", excess.takes);
}

class Reporter {
 public:
  Reporter(const Job &job, Recording what) : options(job.options), recording(std::move(what)), places(&job.modules) {
    if (job.paths) job.paths->name_in(places);
  }
  void write(Region &region, const std::string &name);
  void report_outside(const Occurrences &outside);
  void write_regions(const Run &run, const WholeTime &time, const std::string &name);
  std::vector<Region *> chosen(std::vector<Region *> regions);
  void write_locks(const std::vector<Records *> &threads, const std::string &name);
  void write_off(WholeProgram &whole, const Stacks &stacks, const std::string &name);

 private:
  const Options &options;
  Recording recording;
  Places places;
  RegionSums of_regions;

  Size measure(Region &region);
  std::string head(Region &region, int64_t work);
  void report_remarks(const Region &region, const std::string &name);
  void write_times(Region &region, Events &events, const std::string &name, Object &line);
  bool write_text(Region &region, const std::string &file, const std::string &head, const Style &style,
                  SegmentTable *table, const PartTaker &behind_part);
  bool write_whole(WholeProgram &whole, const std::string &name, const std::string &head, const Style &style,
                   Events &events);
  bool write_parts(Region &region, const std::string &name, const std::string &head, const Style &style,
                   Events &events);
  Object &put_size(Object &line, const std::string &file, const Size &size, int64_t work);
};

// What was let go: what the head of the text and its lines have of it. Without loops it is written as it was let go.
RootEnds measure_before(WholeProgram &whole, const Options &options) {
  Stretches &before = *whole.before;
  whole.work = before.work;
  if (whole.chunk_list.empty()) return before.finest;
  RootEnds ends;
  whole.work = 0;
  before.begin_sums();
  each_stretch(whole, false, [&](Region &stretch) {
    add_up(stretch);
    whole.work += stretch.root->total;
    span_of(stretch, before.ends);
    ends.add(*stretch.root);
    before.take_sums(stretch, options.unit);
  });
  return ends;
}

// Its work and span too.
Size Reporter::measure(Region &region) {
  remark_locks(region);
  RootEnds ends;
  region.work = 0;
  if (region.before) ends = measure_before(static_cast<WholeProgram &>(region), options);
  add_up(region);
  region.work += region.root->total;
  span_of(region);
  ends.add(*region.root);
  region.span = ends.span();
  Size size = size_of(region);
  if (region.before) size.add(region.before->size);
  return size;
}

// Of a text of this work, in units.
std::string Reporter::head(Region &region, int64_t work) {
  int64_t lost = region.work - work * options.unit;
  if (std::abs(lost) > region.work / 50)
    region.remarks[lost > 0 ? Remark::RoundedDown : Remark::RoundedUp].add(nullptr);
  remark_clocks(region);
  if (options.lines) remark_lines(region, places);
  return head_of(region, recording, options, places);
}

void Reporter::report_remarks(const Region &region, const std::string &name) {
  for (auto &[what, seen] : region.remarks)
    Message("remark").put("name", name).put_bare("remark", remark_in_json(what, seen, places));
}

// Those of a region stand behind its text once more, and those of the whole program alone.
void Reporter::write_times(Region &region, Events &events, const std::string &name, Object &line) {
  if (!options.times) return;
  if (!region.has_events || !events.are_whole()) {
    line.put("no times", region.has_events ? "unfinished" : "whole");
    return;
  }
  std::string file = name + (recording.whole ? ".times" : ".timed");
  bool is_written = write_file(file, [&](const Taker &taker) {
    if (!recording.whole) read_file(name + ".tasks", taker), taker("---\n");
    events.print(region, taker);
  });
  if (is_written) line.put("times", file);
}

bool Reporter::write_text(Region &region, const std::string &file, const std::string &head, const Style &style,
                          SegmentTable *table, const PartTaker &behind_part) {
  return write_file(file, [&](const Taker &taker) {
    taker(head);
    print_program(region, style, places, taker, table, behind_part);
  });
}

// What is added up of the segments of the whole program beside their table, where they have times.
class TimedSums {
 public:
  TimedSums(WholeProgram &program, SegmentTable &of, Events &times, const RegionSums &regions)
      : whole(program),
        table(of),
        events(times),
        barriers(of, [&](std::string_view place) { return regions.most_threads(place); }) {}
  void take(Region &part, uint32_t first, uint32_t end) {
    events.take(whole, part, first, end);
    std::vector<SegmentTable::Around> around = table.take_around();
    delays.take(whole, part, events, around);
    barriers.take(events, around);
  }
  void put(Object &line) {
    if (!events.are_whole()) return;
    delays.put(events, line);
    barriers.put(line);
  }

 private:
  WholeProgram &whole;
  SegmentTable &table;
  Events &events;
  Delays delays;
  Barriers barriers;
};

// Of the whole program, with the table of its segments where that has room for all.
bool Reporter::write_whole(WholeProgram &whole, const std::string &name, const std::string &head, const Style &style,
                           Events &events) {
  std::string file = name + ".segments";
  NewFile out(file);
  SegmentTable table([&](std::string_view piece) { out.put(piece); });
  std::optional<TimedSums> sums;
  if (whole.has_events) sums.emplace(whole, table, events, of_regions);
  auto take_part = [&](Region &part, uint32_t first, uint32_t end) {
    if (sums) sums->take(part, first, end);
    else table.take_around();
    whole.off.number(whole);
  };
  bool is_text = write_text(whole, name + ".tasks", head, style, &table, take_part);
  bool has_room = table.finish([&](Object &line) {
    of_regions.put(line);
    if (sums) sums->put(line);
  });
  bool is_table = out.end();
  if (!has_room) remove(file.c_str());
  return is_text && is_table;
}

bool Reporter::write_parts(Region &region, const std::string &name, const std::string &head, const Style &style,
                           Events &events) {
  auto take_part = [&](Region &part, uint32_t first, uint32_t end) {
    if (region.has_events) events.take(region, part, first, end);
  };
  return write_text(region, name + ".tasks", head, style, nullptr, take_part);
}

Object &Reporter::put_size(Object &line, const std::string &file, const Size &size, int64_t work) {
  return line.put("file", file)
      .put("tasks", size.tasks)
      .put("segments", size.segments)
      .put("work", work)
      .put("unit", options.unit_name);
}

void Reporter::write(Region &region, const std::string &name) {
  Size size = measure(region);
  std::string file = name + ".tasks";
  if (Excess excess = over_the_limits(size, options.unit)) return report_excess(file, excess);
  if (options.lines) places.look_up(codes_of(region));
  int64_t work = work_in_units(region, options.unit);
  std::string words = head(region, work);
  bool has_off = recording.whole && static_cast<WholeProgram &>(region).has_off;
  Style style{options.unit, size.tasks > most_tasks, region.has_events || has_off};
  Events events(name);
  if (!(recording.whole ? write_whole(static_cast<WholeProgram &>(region), name, words, style, events)
                        : write_parts(region, name, words, style, events)))
    return;
  report_remarks(region, name);
  Message line("text");
  write_times(region, events, name, put_size(line, file, size, work));
}

void Reporter::report_outside(const Occurrences &outside) {
  if (!outside.times) return;
  if (options.lines) places.look_up({outside.code});
  Message line("outside");
  put_occurrences(line, outside, places);
}

// Of a run without regions there is no table.
void Reporter::write_regions(const Run &run, const WholeTime &time, const std::string &name) {
  if (run.rows.empty()) return;
  if (options.lines) places.look_up(codes_of_regions(run));
  write_file(name + ".regions", [&](const Taker &taker) { print_regions(run, time, places, taker); });
  of_regions = sums_of_regions(run, time, places);
}

// All, or where one is asked for that of median work at its place, so that one that a busy machine held up stands for
// none.
std::vector<Region *> Reporter::chosen(std::vector<Region *> regions) {
  if (!options.one_region) return regions;
  if (!options.region.empty()) {
    std::vector<const void *> codes;
    for (const Region *region : regions) codes.push_back(region->code);
    if (options.lines) places.look_up(codes);
    auto is_elsewhere = [&](const Region *region) { return places.at(region->code) != options.region; };
    regions.erase(std::remove_if(regions.begin(), regions.end(), is_elsewhere), regions.end());
  }
  Region *median = median_of_heaviest(regions);
  return median ? std::vector<Region *>{median} : std::vector<Region *>();
}

void Reporter::write_locks(const std::vector<Records *> &threads, const std::string &name) {
  std::vector<const void *> codes = codes_of_locks(threads);
  if (codes.empty()) return;
  if (options.lines) places.look_up(codes);
  write_file(name + ".locks", lock_table(threads, places));
}

// How segments were off the processor, and what they ran by samples.
void Reporter::write_off(WholeProgram &whole, const Stacks &stacks, const std::string &name) {
  write_file(name + ".off", off_lines(whole, whole.off));
  if (!options.lines || stacks.all().empty()) return;
  write_file(name + ".calls", sampled_lines(whole, whole.off, stacks, places));
}

constexpr uint64_t most_held = 1 << 18;  // tasks of regions that are over, while it is not known which are written
constexpr uint64_t most_timed = 1 << 18;  // tasks and chunks of loops, of which many are written together

// The most tasks of a region of which the events are kept, or of the whole program.
uint64_t most_to_time(const Options &options) {
  if (options.whole) return most_timed;
  return options.times ? UINT64_MAX : 0;
}

// Thread-time outside of regions: by the processor's clock of all threads that meet regions, each as far as its time is
// known, and of the first of a whole program; by the wall clock of that one, or when none is in a region.
int64_t outside_regions(const Job &job, const Run &run, const ProgramTime &time, int64_t end) {
  const Log *first = run.whole ? run.whole->first : nullptr;
  if (!job.options.processor_clock) return first ? time_outside(*first, job.start, end) : time.outside;
  int64_t sum = 0;
  for (const Records *thread : job.threads) {
    const Log &log = thread->log;
    if ((first && log.worker == first->worker) || meets_regions(log))
      sum += processor_time_outside(log, &log == job.last ? job.end_processor : log.last);
  }
  return sum;
}

std::vector<Region *> compose_all(Run &run, const Options &options) {
  std::vector<Region *> with_tasks;
  for (auto &[number, region] : run.regions)
    if (compose(*region, options.bare_parts)) {
      with_tasks.push_back(region.get());
      region->place = with_tasks.size();
    }
  for (auto &[number, region] : run.regions) remark_nested(*region);
  return with_tasks;
}

HowToRead how_to_read(const Job &job) {
  bool by_processor = job.options.processor_clock;
  return {most_to_time(job.options),
          job.options.whole,
          by_processor ? 0 : job.start,
          by_processor ? job.end_processor : job.end,
          job.last,
          job.options.times,
          job.start,
          job.end,
          most_held,
          {},
          job.paths,
          job.out,
          job.options.unit};
}

// These regions, composed. Where some were let go, the log is read again, and all but these are.
std::vector<Region *> held(const std::vector<Region *> &few, const Job &job, Ending ending, Run &run) {
  if (std::none_of(few.begin(), few.end(), [](auto *region) { return region->is_released; })) return few;
  HowToRead how = how_to_read(job);
  how.most_held = 0;
  for (const Region *region : few) how.held.insert(region->number);
  run = Run();
  run = read_run(job.read_again(), ending, how);
  std::vector<Region *> out;
  for (Region *region : compose_all(run, job.options))
    if (how.held.count(region->number)) out.push_back(region);
  return out;
}

void report_whole(const Job &job, Run &run, Recording recording, int64_t end) {
  finish_whole(run, {0, true, job.start, end}, job.options.unit);
  recording.whole = run.whole.get();
  recording.threads.outside -= std::min(run.whole->recorder, recording.threads.outside);
  for (Remark remark : job.unseen) run.whole->remarks[remark];
  WholeTime time{job.start, end, recording.threads.outside};
  Reporter reporter(job, std::move(recording));
  reporter.write_regions(run, time, job.out);
  reporter.write(*run.whole, job.out);
  reporter.write_locks(job.threads, job.out);
  if (run.whole->has_off) reporter.write_off(*run.whole, *job.stacks, job.out);
}
}  // namespace

void report(const Job &job, Ending &ending) {
  const Ending unread = ending;
  Run &run = *new Run(read_run(job.threads, ending, how_to_read(job)));  // given back by the end of the process
  int64_t end = std::max({job.start, job.end, ending.last});  // of a program that was killed the head has none
  ProgramTime time = divide_time(job.threads, job.start, end);
  ThreadTime threads{outside_regions(job, run, time, end), in_code(run), !ending.full && !ending.killed};
  if (run.whole) return report_whole(job, run, {job.program, job.date, 0, time, threads}, end);
  std::vector<Region *> with_tasks = compose_all(run, job.options);
  Recording recording{job.program, job.date, with_tasks.size(), time, threads};
  Reporter reporter(job, std::move(recording));
  if (with_tasks.empty() && !job.may_be_empty) Message("no tasks").put("inside", ending.wall != 0);
  std::vector<Region *> written = held(reporter.chosen(with_tasks), job, unread, run);
  for (size_t i = 0; i < written.size(); i++) {
    written[i]->text = i + 1;
    for (Remark remark : job.unseen) written[i]->remarks[remark];
  }
  list_regions(run);
  reporter.write_regions(run, {job.start, end, threads.outside}, job.out);
  for (size_t i = 0; i < written.size(); i++)
    reporter.write(*written[i], job.out + (i ? "." + std::to_string(i + 1) : ""));
  reporter.report_outside(run.outside);
}
