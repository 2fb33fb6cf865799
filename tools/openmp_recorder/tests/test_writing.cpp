// Heads, remarks, names, files.
#include <sys/resource.h>
#include <unistd.h>

#include <csignal>

#include "events.hpp"
#include "files.hpp"
#include "size.hpp"
#include "head.hpp"
#include "merge.hpp"
#include "modules.hpp"
#include "program_start.hpp"
#include "program_time.hpp"
#include "run_files.hpp"
#include "check.hpp"
#include "made.hpp"

namespace {
Run two_tasks() { return Made(2).barrier(1, 2).after(1499).create(0, 1, 3).barrier(0, 1).run(1, 2, 3, 2500).read(); }

Run two_parts() { return Made(2).after(1499).create(0, 1, 3).barrier(0, 1).barrier(1, 2).run(1, 2, 3, 2500).read(); }
}  // namespace

TEST(costs_are_in_the_unit_and_rounded) {
  Run run = two_tasks();
  Region &region = only_region(run);
  EXPECT(text_of(region, {1000, false}), "work 1\ntask {\n  work 3\n}\n");
  EXPECT(work_in_units(region, 1000), 4);
}

TEST(a_large_text_is_told_piece_by_piece_and_not_indented) {
  Run run = Made()
                .create(0, 1, 2)
                .go(0, 1, 2)
                .after(3)
                .create(0, 2, 3)
                .go(0, 2, 1, ompt_task_complete)
                .run(0, 1, 3, 4)
                .barrier(0, 1)
                .read();
  Region &region = only_region(run);
  std::string words;
  print_program(region, {1, true, false}, Places(), [&](std::string_view piece) { words += piece; });
  EXPECT(words, "omptasks 1\ntask {\nwork 3\ntask {\nwork 4\n}\n}\n");
  EXPECT(region.numbers.empty(), true);
  print_program(region, {1, true, true}, Places(), [](std::string_view) {});
  std::vector<uint32_t> expected{0, 4, 1, 3, 2};  // of the root, its child, and the child's
  EXPECT(std::equal(region.numbers.begin(), region.numbers.end(), expected.begin(), expected.end()), true);
}

TEST(the_work_is_that_of_the_lines) {
  Run run = two_tasks();
  Region &region = only_region(run);
  EXPECT(work_in_units(region, 1), 3999);
  EXPECT(work_in_units(region, 1000), 1 + 3);
}

TEST(deeply_nested_tasks_are_written_line_by_line) {
  Region region;
  Task *maker = &region.tasks.emplace_back();
  region.root = maker;
  const size_t deep = 200000;
  for (size_t i = 0; i < deep; i++) {
    Task &child = region.tasks.emplace_back();
    child.parent = maker;
    maker->steps.push_back(Step::work(1));
    maker->steps.push_back(Step::create(&child));
    maker->segment = maker->children = 1;
    maker = &child;
  }
  add_up(region);
  EXPECT(size_of(region).blocks, deep);
  size_t bytes = 0, pieces = 0;
  print_program(region, {1, true, false}, Places(), [&](std::string_view piece) { bytes += piece.size(), pieces++; });
  EXPECT(bytes, std::string("omptasks 1\n").size() + deep * std::string("work 1\ntask {\n}\n").size());
  EXPECT(pieces > 1, true);
}

// Whether a file of seven bytes is written where the system allows six.
bool ends_where_six_bytes_fit(const std::string &name) {
  rlimit before;
  getrlimit(RLIMIT_FSIZE, &before);
  auto handler = signal(SIGXFSZ, SIG_IGN);
  rlimit six = {6, before.rlim_max};
  setrlimit(RLIMIT_FSIZE, &six);
  NewFile longer(name);
  longer.put("four");
  longer.put("two");
  bool ends = longer.end();
  setrlimit(RLIMIT_FSIZE, &before);
  signal(SIGXFSZ, handler);
  return ends;
}

TEST(a_new_file_is_there_only_where_all_is_written) {
  std::string name = "/tmp/spanprof_recorder_test." + std::to_string(getpid());
  NewFile whole(name);
  whole.put("four");
  whole.put("two");
  EXPECT(access(name.c_str(), F_OK), -1);  // it has its name once it is whole
  EXPECT(whole.end(), true);
  EXPECT(access(name.c_str(), F_OK), 0);
  EXPECT(ends_where_six_bytes_fit(name), false);
  EXPECT(NewFile("/no/such/folder/x").end(), false);
  EXPECT(access(name.c_str(), F_OK), -1);
}

TEST(of_a_file_that_is_given_up_nothing_stays) {
  std::string name = "/tmp/spanprof_recorder_test." + std::to_string(getpid());
  auto give_up = [](const std::function<void(std::string_view)> &taker) {
    taker("four");
    throw std::bad_alloc();
  };
  try {
    write_file(name, give_up);
  } catch (const std::bad_alloc &) {
  }
  EXPECT(access((name + ".new").c_str(), F_OK), -1);
}

TEST(a_file_without_a_name_gives_back_what_was_written_as_often_as_asked) {
  NamelessFile file("/tmp/spanprof_recorder_test");
  const std::string large(600000, 'x');  // more than its buffer
  for (uint32_t i = 0; i < 100000; i++) file.write(&i, sizeof i);
  file.write(large.data(), large.size());
  for (uint32_t skipped : {7U, 99998U}) {
    file.go_to(skipped * sizeof skipped);
    uint32_t found = 0, sum = 0;
    for (uint32_t i = skipped; i < 100000; i++) file.read(&found, sizeof found), sum += found != i;
    std::string last(large.size(), ' ');
    file.read(last.data(), last.size());
    EXPECT(sum, 0U);
    EXPECT(last == large, true);
  }
}

TEST(times_of_segments_are_since_the_region_began) {
  Run run = two_tasks();
  Region &region = only_region(run);
  text_of(region);
  Events events = event_lines(region);
  EXPECT(events.are_whole(), true);
  EXPECT(events.workers(), 2u);
  EXPECT(told_times(region, std::move(events)), "times 2 0 3999\n0 0 0 1499\n1 1 1499 3999\n2 0 1499 1499\n");
}

// As records of a damaged log may.
TEST(a_segment_whose_end_is_told_before_its_begin_takes_no_time) {
  Run run = two_tasks();
  Region &region = only_region(run);
  text_of(region);
  for (Event &event : region.events)
    if (!event.start) event.at = region.time.begin - 100;
  for (const SegmentTime &time : event_lines(region).times) EXPECT(time.end, time.begin);
}

// LLVM 14 may tell of a thread's last code after the region's end.
TEST(the_root_ends_behind_all_that_is_told) {
  Run run = two_parts();
  run.regions.begin()->second->time.end -= 1000;
  Region &region = only_region(run);
  text_of(region);
  Column<SegmentTime> times = event_lines(region).times;
  int64_t last = 0;
  for (const SegmentTime &time : times) last = std::max(last, time.end);
  EXPECT(times.back().begin, last);
  EXPECT(last > region.time.end - region.time.begin, true);
}

TEST(a_run_that_is_not_whole_says_so) {
  Run run = Made().create(0, 1, 2).barrier(0, 1).read();
  Region &region = only_region(run);
  text_of(region);
  EXPECT(event_lines(region).are_whole(), false);
}

TEST(the_head_tells_the_functions_of_places) {
  Run run = two_tasks();
  Region &region = only_region(run);
  const void *code = region.tasks.back().code;
  Places places;
  places.put(code, "sort.c:9");
  places.put_frames(code, {{"merge", "sort.c:9"}, {"sort", "sort.c:30"}});
  EXPECT_PART(head_of(region, {}, Options(), places),
              R"(# place: {"at": "sort.c:9", "in": "merge", "inlined": [{"in": "sort", "at": "sort.c:30"}]})");
}

// By the numbers of the segments in the text, the most first; of what is not in it nothing is told.
TEST(the_head_tells_what_other_programs_took) {
  Run run = two_tasks();
  Region &region = only_region(run);
  const Task *root = region.root, *task = &region.tasks.back();
  region.preempted.made() = {{root, 0, 100}, {task, 0, 300}, {root, 0, 50}, {task, 9, 400}};
  EXPECT(head_of(region, {}, Options(), Places()).find("preempted"), std::string::npos);  // no text is written
  text_of(region, {1, false, true});
  EXPECT_PART(head_of(region, {}, Options(), Places()), "# preempted: [[1, 300], [0, 150]]\n");
}

TEST(the_head_tells_the_recording) {
  Run run = two_parts();
  Region &region = only_region(run);
  region.place = 2;
  region.locks[7] = {ompt_mutex_critical, nullptr, 3, 400, 90, 300};
  region.divided[Divided::Loops].times = 4;
  region.differing->add(true, 2000, 49000, nullptr);
  region.differing->add(true, 1000, 1000, nullptr);
  region.asleep->add(true, 500, 60000, nullptr);
  region.untimed = 70000;
  region.remarks[Remark::Detach].add(nullptr);
  Options options;
  options.unit_name = "ns";
  Recording recording{"sort", "2026-11-24T00:10:02Z", 5, {100, 9000}, {100, 7798, true}};
  std::string head = head_of(region, recording, options, Places());
  EXPECT(head,
         R"(# recorded: {"program": "sort", "date": "2026-11-24T00:10:02Z", "threads": 2, "clock": "wall", "unit": "ns"}
# region: {"number": 2, "of": 5}
# covers: {"text": 5498, "program": 7898}
# not covered: {"outside regions": 100, "in other regions": 2300, "of this region": 0}
# divided: {"what": "loops", "threads": 2, "times": 4}
# divided: {"what": "code", "threads": 2, "parts": 2, "beside": 1499}
# clock reading: 0
# clocks differ: {"affected": 3000, "work": 5498, "by": 50000, "times": 2}
# slept: {"affected": 500, "work": 5498, "by": 60000, "times": 1}
# untimed: 70000
# elapsed: 3999
# outside regions: 100
# in other regions: 5001
# in parts without tasks: 1499
# in tasks: 3999
# most held lock: 300
# lock: {"kind": "critical", "times": 3, "inside": 400, "waiting": 90}
# remark: {"remark": "detach", "times": 1, "span": "low"}
)");
}

TEST(locks_of_one_place_are_reported_together) {
  Run run = two_tasks();
  Region &region = only_region(run);
  for (uint64_t name = 1; name <= 13; name++) region.locks[name] = {ompt_mutex_lock, nullptr, 1, 40, 2, 30};
  region.locks[14] = {ompt_mutex_critical, nullptr, 1, 900, 2, 20};
  EXPECT_PART(head_of(region, {}, Options(), Places()), R"(# most held lock: 30
# lock: {"kind": "critical", "times": 1, "inside": 900, "waiting": 2}
# lock: {"kind": "omp_lock", "times": 13, "inside": 520, "waiting": 26}
)");
}

TEST(places_of_locks_beyond_ten_are_reported_together) {
  Run run = two_tasks();
  Region &region = only_region(run);
  Places places;
  const char code[13] = {};
  for (unsigned at = 0; at < sizeof code; at++) {
    places.put(code + at, "a.c:" + std::to_string(at));
    region.locks[at] = {ompt_mutex_lock, code + at, 1, 40, 2, 0};
  }
  EXPECT_PART(head_of(region, {}, Options(), places),
              "# lock: {\"others\": 3, \"times\": 3, \"inside\": 120, \"waiting\": 6}\n");
}

TEST(the_head_says_what_is_not_in_the_text) {
  Run run = two_tasks();
  Region &region = only_region(run);
  region.in_own_regions = 500;  // of 3999
  Options options;
  options.unit = 1000, options.unit_name = "us";
  Recording recording{"sort", "", 5, {100, 9000}, {1000, 6000, false}};
  std::string head = head_of(region, recording, options, Places());
  EXPECT_PART(head, R"(# covers: {"text": 3, "program": 7, "at most": true}
# not covered: {"outside regions": 1, "in other regions": 3, "of this region": 0}
)");
}

TEST(code_of_one_thread_is_not_divided) {
  Run run = Made().create(0, 1, 2, is_undeferred).run(0, 1, 2, 5).barrier(0, 1).read();
  std::string head = head_of(only_region(run), {"sort", "", 1, {}, {}}, {}, Places());
  EXPECT_PART(head, "\"threads\": 1, ");
  EXPECT(head.find("# divided"), std::string::npos);
}

TEST(locks_that_take_a_hundredth_are_remarked) {
  Run run = two_tasks();
  Region &region = only_region(run);
  region.locks[7] = {ompt_mutex_critical, nullptr, 3, 30, 90};
  remark_locks(region);
  EXPECT(region.remarks->count(Remark::HeldLock), 0u);
  region.locks[8] = {ompt_mutex_lock, nullptr, 1, 30, 90};
  remark_locks(region);
  EXPECT(region.remarks[Remark::HeldLock].times, 4u);
}

TEST(files_of_a_process_of_mpi_have_its_number) {
  EXPECT(name_of_rank("out"), "out");
  setenv("PMI_RANK", "3", 1);
  EXPECT(name_of_rank("out"), "out");
  setenv("PMI_SIZE", "4", 1);
  EXPECT(name_of_rank("out"), "out.rank3");
  EXPECT(name_of_rank("out.rank3.spanprof.part/out.rank3"), "out.rank3.spanprof.part/out.rank3");
  setenv("PMI_SIZE", "1", 1);
  EXPECT(name_of_rank("out"), "out");
  unsetenv("PMI_RANK");
  unsetenv("PMI_SIZE");
}

TEST(a_module_calls_what_its_relocations_name) {
  EXPECT(one_module_calls({"flock", "dl_iterate_phdr"}), true);  // run_files.cpp and modules.cpp
  EXPECT(one_module_calls({"flock", "GOMP_task"}), false);
  EXPECT(unseen_of_gcc(), 0u);
}

TEST(clocks_are_remarked_where_they_may_move_a_number_by_a_twentieth) {
  auto remarked = [](int64_t work, int64_t span, int64_t off, int64_t slightly) {
    Region region;
    region.work = work, region.span = span;
    if (off) region.differing->add(true, off, off, nullptr);
    region.differing->add(false, slightly, slightly, nullptr);
    remark_clocks(region);
    return region.remarks->count(Remark::Preempted) ? region.remarks[Remark::Preempted].times : 0;
  };
  EXPECT(remarked(2000000, 2000000, 50000, 50000), 0u);
  EXPECT(remarked(1999999, 1999999, 50000, 50000), 1u);
  EXPECT(remarked(2000000, 1999999, 50000, 50000), 1u);
  EXPECT(remarked(2000000, 1999999, 0, 100000), 1u);
  EXPECT(remarked(2000000, 900000, 25000, 24999), 0u);  // a few microseconds of a short region are not worth a word
}

TEST(a_remark_on_what_is_not_seen_has_no_number) {
  EXPECT(remark_in_json(Remark::UnseenDetach, {}, Places()), "{\"remark\": \"unseen detach\", \"span\": \"low\"}");
}

TEST(records_come_in_their_common_order) {
  Kept first(0), second(1);
  auto add = [](Kept &thread, std::initializer_list<uint64_t> orders) {
    for (uint64_t order : orders) thread.records.emplace_back().order = order;
  };
  add(first, {0, 3, 4, 7});
  add(second, {1, 2, 5, 6, 8});
  InOrder records({&first, &second});
  std::string seen;
  while (const Record *record = records.next())
    seen += std::to_string(record->order) + (&records.log() == &first.log ? "a" : "b");
  EXPECT(seen, "0a1b2b3a4a5b6b7a8b");
}

TEST(locks_count_times_inside_and_waiting) {
  Locks locks;
  locks.get({7, ompt_mutex_critical, nullptr, 100, 70, 5});
  locks.leave(7, 1, 150, 5);
  const LockUse &use = locks.uses().at({1, 7});
  EXPECT(use.times, 1u);
  EXPECT(use.waiting, 70);  // by the wall clock
  EXPECT(use.inside, 50);
  EXPECT(use.alone, 50);
}

TEST(where_records_came_meanwhile_a_lock_may_have_held_another_task) {
  Locks locks;
  locks.get({7, ompt_mutex_critical, nullptr, 100, 0, 5});
  locks.leave(7, 1, 150, 6);
  EXPECT(locks.uses().at({1, 7}).inside, 50);
  EXPECT(locks.uses().at({1, 7}).alone, 0);
}
