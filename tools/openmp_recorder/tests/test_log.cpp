// Logs as the recorder's library leaves them, also where it was killed.
#include <fcntl.h>
#include <sys/file.h>
#include <sys/stat.h>
#include <unistd.h>

#include <cmath>
#include <cstdio>
#include <cstdlib>
#include <cstring>
#include <stdexcept>

#include "elf_file.hpp"
#include "log_damage.hpp"
#include "log_reader.hpp"
#include "run_files.hpp"
#include "check.hpp"

namespace {
using log_form::block_bytes;
using log_form::Head;
using log_form::RawRecord;
using log_form::ShortRecord;

constexpr size_t in_block = block_bytes / sizeof(RawRecord);

RawRecord raw(uint64_t at, RecordKind kind, uint32_t task = 0, uint32_t other = 0, uint64_t code = 0,
              unsigned detail = 0) {
  return {at, task, other, log_form::make_word(code, static_cast<unsigned>(kind), detail)};
}

// From the reading 1 on: what begins with 0 is no record.
std::vector<RawRecord> schedules(uint64_t from, size_t count) {
  std::vector<RawRecord> out;
  for (size_t i = 0; i < count; i++) out.push_back(raw(from + i, RecordKind::Schedule, 1, 2));
  return out;
}

// A log of one thread, by the wall clock in nanoseconds, where a record takes 5 of them.
class MadeLog {
 public:
  MadeLog() {
    char name[] = "/tmp/spanprof-test-XXXXXX";
    folder = std::string(mkdtemp(name)) + "/out.spanprof/log";
    if (system(("mkdir -p " + folder).c_str())) throw std::runtime_error("no folder");
    std::memcpy(head.magic, log_form::magic, sizeof head.magic);
    head.version = log_form::version;
    head.record_bytes = log_form::bytes_by_wall;
    head.in_a_record = 5;
    write(log_form::modules_file, nullptr, 0);
  }
  ~MadeLog() {
    if (system(("rm -r " + folder.substr(0, folder.rfind("/out"))).c_str())) std::perror("rm");
  }
  void full(std::vector<RawRecord> records) { write("/thread.0", records.data(), records.size() * sizeof(RawRecord)); }
  void last(std::vector<RawRecord> records) {
    records.resize(in_block);
    write("/thread.0.last", records.data(), block_bytes);
  }
  LogFolder open() {
    write(log_form::head_file, &head, sizeof head);
    return LogFolder(folder);
  }
  std::vector<Record> records() {
    LogFolder log = open();
    std::vector<Record> out;
    while (const Record *record = log.threads.at(0)->next()) out.push_back(*record);
    return out;
  }
  void paths(const std::string &lines) { write(log_form::paths_file, lines.data(), lines.size()); }
  void samples(const std::vector<int64_t> &at, uint16_t took) {  // of one call each
    std::string bytes;
    for (int64_t time : at) {
      log_form::RawSample raw{1, time, 4000, took, 1, 0};
      bytes.append(reinterpret_cast<const char *>(&raw), sizeof raw);
      bytes.resize(bytes.size() + raw.bytes() - sizeof raw, 1);
    }
    write("/samples.0", bytes.data(), bytes.size());
  }
  Head head{};
  std::string folder;

 private:
  void write(const char *name, const void *bytes, size_t count) {
    FILE *file = fopen((folder + name).c_str(), "w");
    if (count) fwrite(bytes, 1, count, file);
    fclose(file);
  }
};
}  // namespace

TEST(a_log_ends_at_the_first_record_that_is_not_there) {
  MadeLog log;
  log.last({raw(10, RecordKind::Schedule, 1, 2, 0, 7),
            raw(20, RecordKind::SyncBegin, 2, 0, 99),
            {},
            raw(30, RecordKind::Schedule)});
  std::vector<Record> found = log.records();
  EXPECT(found.size(), 2u);
  EXPECT(found[0].detail, 7u);
  EXPECT(found[1].at, 20);
  EXPECT(reinterpret_cast<uint64_t>(found[1].place()), 99u);
  EXPECT(found[1].stood_still, 5);  // what the first record took
}

// Records of both sizes, one behind the other.
class Block {
 public:
  Block &add(const RawRecord &record) { return put(&record, sizeof record); }
  Block &add(const ShortRecord &record) { return put(&record, sizeof record); }
  std::vector<RawRecord> records() const {
    std::vector<RawRecord> out(in_block);
    std::memcpy(out.data(), bytes.data(), bytes.size());
    return out;
  }

 private:
  std::string bytes;
  Block &put(const void *record, size_t count) {
    bytes.append(static_cast<const char *>(record), count);
    return *this;
  }
};

TEST(a_short_record_goes_from_the_task_that_the_thread_is_in) {
  MadeLog log;
  Block block;
  block.add(raw(1000, RecordKind::SyncBegin, 3, 0, 99)).add(log_form::make_short(10, 7, 5));
  block.add(log_form::make_short(30, 1, 3));
  log.last(block.records());
  std::vector<Record> found = log.records();
  EXPECT(found.size(), 3u);
  EXPECT(found[1].record_kind() == RecordKind::Schedule && found[2].record_kind() == RecordKind::Schedule, true);
  EXPECT(found[1].task, 3u);
  EXPECT(found[1].other, 5u);
  EXPECT(found[1].order, 1010u);
  EXPECT(found[1].detail, 7u);
  EXPECT(found[2].task, 5u);
  EXPECT(found[2].other, 3u);
  EXPECT(found[2].order, 1040u);
}

TEST(a_short_record_is_like_the_last_long_one_of_its_slot) {
  MadeLog log;
  unsigned like = log_form::slots + log_form::slot_of(77, static_cast<unsigned>(RecordKind::Create));
  Block block;
  block.add(raw(1000, RecordKind::Create, 3, 4, 77, is_untied)).add(log_form::make_short(20, like, 6));
  block.add(raw(1030, RecordKind::Dependences, 6, 0, 1)).add(raw(50, RecordKind::Items, 9, 0, 0, 1));
  block.add(log_form::make_short(9, like, 7));
  log.last(block.records());
  std::vector<Record> found = log.records();
  EXPECT(found.size(), 4u);
  for (size_t i : {size_t{1}, size_t{3}}) {
    EXPECT(found[i].record_kind() == RecordKind::Create, true);
    EXPECT(found[i].task, 3u);
    EXPECT(found[i].other, i == 1 ? 6u : 7u);
    EXPECT(found[i].order, i == 1 ? 1020u : 1039u);
    EXPECT(reinterpret_cast<uint64_t>(found[i].place()), 77u);
    EXPECT(found[i].detail, static_cast<unsigned>(is_untied));
  }
}

TEST(a_block_that_is_full_ends_before_its_end) {
  MadeLog log;
  std::vector<RawRecord> first = schedules(1, in_block), second = schedules(in_block, in_block);
  first.back() = raw(0, RecordKind::Nothing);
  first.insert(first.end(), second.begin(), second.end());
  log.full(first);
  log.last({});
  EXPECT(log.records().size(), 2 * in_block - 1);
}

TEST(a_creation_has_the_path_that_is_listed) {
  MadeLog log;
  auto path = log_form::place_of_path(2);
  log.paths("4010a0 4020b0\n4010c0 4020b0\n");
  log.last({raw(10, RecordKind::Create, 1, 2, path), raw(20, RecordKind::LoopBegin, 1, 0, path),
            raw(30, RecordKind::Create, 1, 3, 99)});
  std::vector<Record> found = log.records();
  EXPECT(found.size(), 3u);
  for (size_t i : {size_t{0}, size_t{1}}) {
    EXPECT(found[i].path, 2u);
    EXPECT(reinterpret_cast<uint64_t>(found[i].place()), 0x4010c0u);
  }
  EXPECT(found[2].path, 0u);
  EXPECT(reinterpret_cast<uint64_t>(found[2].place()), 99u);
}

TEST(a_recording_of_an_earlier_run_stays) {
  MadeLog log;
  log.open();
  std::string name = log.folder.substr(0, log.folder.rfind(".spanprof/")), own = name + ".child7";
  EXPECT(free_folder(name + "x", own, false, 0), name + "x.spanprof");
  EXPECT(free_folder(name, own, false, INT64_MAX), name + "-2.spanprof");
  EXPECT(free_folder(name, own, false, 0), own + ".spanprof");  // it is of this run
  EXPECT(free_folder(name, own, true, INT64_MAX), own + ".spanprof");
  int head = open((log.folder + log_form::head_file).c_str(), O_RDONLY);
  flock(head, LOCK_SH);
  EXPECT(free_folder(name, own, false, INT64_MAX), own + ".spanprof");  // its program still runs
  close(head);
  if (system(("mkdir " + name + "-2.spanprof " + own + ".spanprof").c_str())) throw std::runtime_error("no folder");
  EXPECT(free_folder(name, own, false, INT64_MAX), name + "-3.spanprof");
  EXPECT(free_folder(name, own, true, INT64_MAX), own + "-2.spanprof");
}

// It may seem to begin later than the process did.
TEST(a_program_that_a_process_goes_over_to_has_a_log_of_its_own) {
  MadeLog log;
  log.head.process = static_cast<uint32_t>(getpid());
  log.open();
  std::string name = log.folder.substr(0, log.folder.rfind(".spanprof/")), own = name + ".child7";
  struct stat about {};
  EXPECT(stat((log.folder + log_form::head_file).c_str(), &about), 0);
  int64_t made = int64_t{about.st_mtim.tv_sec} * 1000000000 + about.st_mtim.tv_nsec;
  EXPECT(free_folder(name, own, false, made + 9000000), own + ".spanprof");
  EXPECT(free_folder(name, own, false, made + 11000000), name + "-2.spanprof");
}

TEST(full_blocks_come_before_the_last_one) {
  MadeLog log;
  log.full(schedules(1, 2 * in_block));
  log.last(schedules(1 + 2 * in_block, 3));
  std::vector<Record> found = log.records();
  EXPECT(found.size(), 2 * in_block + 3);
  EXPECT(found.back().order, 2 * in_block + 3);
}

TEST(a_block_that_was_written_and_not_cleared_counts_once) {
  MadeLog log;
  log.full(schedules(1, in_block));
  log.last(schedules(1, in_block));
  EXPECT(log.records().size(), in_block);
}

TEST(a_block_that_was_not_written_whole_is_the_last_one) {
  MadeLog log;
  log.full(schedules(1, in_block + 10));
  log.last(schedules(1 + in_block, in_block));
  EXPECT(log.records().size(), 2 * in_block);
}

TEST(items_follow_their_dependences) {
  MadeLog log;
  log.last({raw(10, RecordKind::Dependences, 3, 0, 3),
            raw(uint64_t{1} << 56 | 64, RecordKind::Items, 72, 2u << 24, 0, 2),
            raw(uint64_t{3} << 56 | 80, RecordKind::Items, 0, 0, 0, 1), raw(20, RecordKind::Schedule, 1, 2)});
  LogFolder folder = log.open();
  Records &thread = *folder.threads.at(0);
  EXPECT(thread.next()->code, 3u);
  EXPECT(thread.log.items.size(), 3u);
  EXPECT(thread.log.items[1].address, 72u);
  EXPECT(thread.log.items[1].type, 2u);
  EXPECT(thread.log.items[2].type, 3u);
  EXPECT(static_cast<int>(thread.next()->record_kind()), static_cast<int>(RecordKind::Schedule));
}

TEST(time_in_the_recorder_and_for_locks_is_not_the_threads) {
  MadeLog log;
  log.last({raw(10, RecordKind::Schedule, 1, 2), raw(40, RecordKind::StoodStill, 30),
            raw(80, RecordKind::LockGot, 7, log_form::wait_of(20), 99, 1), raw(90, RecordKind::LockLeft, 7),
            raw(100, RecordKind::Schedule, 2, 1)});
  LogFolder folder = log.open();
  Records &thread = *folder.threads.at(0);
  thread.next();
  EXPECT(thread.next()->stood_still, 3 * 5 + 30 + 20);  // three records outside of the wait
  const LockUse &use = thread.log.locks.uses().at({0, 7});
  EXPECT(use.waiting, 20);
  EXPECT(use.inside, 5);
  EXPECT(use.times, 1u);
}

TEST(a_sample_in_time_that_is_left_out_counts_no_more) {
  MadeLog log;
  log.samples({25, 45, 70, 95}, 3);
  log.last({raw(10, RecordKind::Schedule, 1, 2), raw(40, RecordKind::StoodStill, 30),
            raw(80, RecordKind::LockGot, 7, log_form::wait_of(20), 99, 1), raw(90, RecordKind::LockLeft, 7),
            raw(100, RecordKind::Schedule, 2, 1)});
  int64_t samples = 0, stood_still = 0;
  for (const Record &record : log.records()) {
    samples += record.record_kind() == RecordKind::Sample;
    stood_still += record.stood_still;
  }
  EXPECT(samples, 4);
  EXPECT(stood_still, 3 * 5 + 30 + 20 + 2 * 3);  // the samples at 45 and 95 interrupted code
}

TEST(short_records_of_a_lock_name_the_one_of_their_slot) {
  MadeLog log;
  unsigned like = log_form::slots + log_form::slot_of(99, static_cast<unsigned>(RecordKind::LockGot));
  Block block;
  block.add(raw(1000, RecordKind::Schedule, 1, 2)).add(raw(1100, RecordKind::LockGot, 7, log_form::wait_of(20), 99, 1));
  block.add(log_form::make_short(30, log_form::lock_left, 0))
      .add(log_form::make_short(50, like, log_form::wait_of(40)));
  block.add(log_form::make_short(30, log_form::lock_left, 0)).add(log_form::make_short(10, 7, 1));
  log.last(block.records());
  LogFolder folder = log.open();
  Records &thread = *folder.threads.at(0);
  thread.next();
  EXPECT(thread.next()->task, 2u);  // which no lock is
  const LockUse &use = thread.log.locks.uses().at({0, 7});
  EXPECT(use.times, 2u);
  EXPECT(use.waiting, 60);
  EXPECT(use.inside, 50);
}

TEST(regions_of_a_thread_have_their_times) {
  MadeLog log;
  log.last({raw(10, RecordKind::ParallelBegin, 0, 1, 99), raw(20, RecordKind::ImplicitBegin, 1, 1, 2),
            raw(70, RecordKind::ImplicitEnd, 1, 1), raw(90, RecordKind::ParallelEnd, 0, 1)});
  LogFolder folder = log.open();
  while (folder.threads.at(0)->next()) {
  }
  const RegionTime &time = folder.threads.at(0)->log.regions.at(0);
  EXPECT(time.is_outermost, true);
  EXPECT(time.begin, 10);
  EXPECT(time.end, 90);
}

TEST(what_is_no_log_is_refused) {
  auto why = [](MadeLog &log) -> std::string {
    try {
      log.open();
    } catch (const std::runtime_error &wrong) {
      return wrong.what();
    }
    return "";
  };
  MadeLog other, later, empty;
  other.head.magic[0] = 'X';
  empty.head = {};
  later.head.version = log_form::version + 1;
  EXPECT(why(other), "no log of the recorder");
  EXPECT(why(empty), "the program ended before recording began");
  std::string known = std::to_string(log_form::version), newer = std::to_string(log_form::version + 1);
  EXPECT(why(later), "version " + newer + " of the log, and this is for version " + known);
}

// Why it is refused; empty where it is not.
std::string refusal(MadeLog &log) {
  try {
    log.records();
  } catch (const DamagedLog &damage) {
    return damage.what();
  }
  return "";
}

TEST(what_no_recorder_writes_is_refused) {
  auto why = [](std::vector<RawRecord> records) {
    MadeLog log;
    log.head.first.ticks = 5000000;
    log.last(std::move(records));
    return refusal(log);
  };
  constexpr uint64_t now = 9000000;
  EXPECT(why({raw(now, RecordKind::Schedule), raw(now - 10, RecordKind::Schedule)}), "");
  EXPECT(why({raw(now, RecordKind::Schedule), raw(now - 2000000, RecordKind::Schedule)}),
         "thread.0.last is damaged at byte 24: its time is before that of the record before it");
  EXPECT(why({raw(1000000, RecordKind::Schedule)}), "thread.0.last is damaged at byte 0: its time is none of this run");
  EXPECT(why({raw(uint64_t{1} << 60, RecordKind::Schedule)}),
         "thread.0.last is damaged at byte 0: its time is none of this run");
  EXPECT(why({raw(now, RecordKind::Sample)}), "thread.0.last is damaged at byte 0: it is of no kind");
  EXPECT(why({raw(now, RecordKind::Create, 1, 2, log_form::place_of_path(1))}),
         "thread.0.last is damaged at byte 0: its call path is not listed");
  EXPECT(why({raw(now, RecordKind::StoodStill, 0, UINT32_MAX)}),
         "thread.0.last is damaged at byte 0: the recorder took longer than the run");
  for (float wait : {-1.F, 1e30F, NAN})
    EXPECT(why({raw(now, RecordKind::LockGot, 7, log_form::wait_of(wait), 99)}),
           "thread.0.last is damaged at byte 0: it waited for longer than the run");
}

TEST(a_full_block_without_all_its_records_is_refused) {
  MadeLog log;
  std::vector<RawRecord> first = schedules(1, in_block), second = schedules(in_block, in_block);
  second[7] = raw(0, RecordKind::Nothing);
  first.insert(first.end(), second.begin(), second.end());
  log.full(first);
  log.last({});
  EXPECT(refusal(log),
         "thread.0 is damaged at byte " + std::to_string((in_block + 7) * sizeof(RawRecord)) + ": records are missing");
}

TEST(a_head_of_impossible_times_is_refused) {
  auto why = [](void (*damage)(Head &)) {
    MadeLog log;
    damage(log.head);
    log.last({});
    return refusal(log);
  };
  EXPECT(why([](Head &) {}), "");
  EXPECT(why([](Head &head) { head.first.wall = -1; }), "its head is damaged");
  EXPECT(why([](Head &head) { head.program_start = head.first.wall + 1; }), "its head is damaged");
  EXPECT(why([](Head &head) { head.is_child = 1, head.program_start = head.first.wall + 1; }), "");
  EXPECT(why([](Head &head) { head.in_a_record = INT64_MAX; }), "its head is damaged");
  EXPECT(why([](Head &head) { head.record_bytes = 7; }), "its head is damaged");
  EXPECT(why([](Head &head) { head.end = {1, INT64_MAX}; }), "its head is damaged");
  EXPECT(why([](Head &head) { head.how_ended = static_cast<log_form::HowEnded>(9); }), "its head is damaged");
}

TEST(threads_without_files) {
  MadeLog log;
  log.last({raw(10, RecordKind::Schedule, 1, 2)});
  if (system(("cp " + log.folder + "/thread.0.last " + log.folder + "/thread.2.last").c_str())) std::perror("cp");
  LogFolder folder = log.open();
  EXPECT(folder.threads.size(), 3u);
  EXPECT(folder.threads[1]->next() == nullptr, true);
  EXPECT(folder.threads[2]->next() != nullptr, true);
  if (system(("touch " + log.folder + "/thread.1").c_str())) std::perror("touch");
  EXPECT(refusal(log), "thread.1.last is missing");
}

TEST(a_region_in_a_thread_of_a_team_is_inside) {
  MadeLog log;
  log.last({raw(10, RecordKind::ImplicitBegin, 5, 1, 4), raw(20, RecordKind::ParallelBegin, 5, 2, 99),
            raw(30, RecordKind::ImplicitBegin, 6, 2, 2), raw(40, RecordKind::ImplicitEnd, 6, 2),
            raw(50, RecordKind::ParallelEnd, 0, 2), raw(60, RecordKind::ImplicitEnd, 5, 1),
            raw(70, RecordKind::ImplicitBegin, 7, 0, 1, is_initial), raw(80, RecordKind::ParallelBegin, 7, 3, 99)});
  LogFolder folder = log.open();
  while (folder.threads.at(0)->next()) {
  }
  EXPECT(folder.threads.at(0)->log.regions.at(0).is_outermost, false);
  EXPECT(folder.threads.at(0)->log.regions.at(1).is_outermost, true);
}

TEST(a_file_tells_its_symbols) {
  ElfFile libc("/lib/x86_64-linux-gnu/libc.so.6"), none("/no/such/file");
  EXPECT(libc.defines("printf"), true);
  EXPECT(libc.defines("no_such_function"), false);
  EXPECT(none.function_at(16).has_value(), false);
  EXPECT(none.bytes_at(0, 4).empty(), true);
}

TEST(what_gcc_optimises) {
  auto is_told = [](const std::string &producer) {
    MadeLog log;
    std::string path = log.folder + "/file", bytes = std::string("x\0", 2) + producer + std::string("\0y", 2);
    FILE *file = fopen(path.c_str(), "w");
    fwrite(bytes.data(), 1, bytes.size(), file);
    fclose(file);
    return ElfFile(path).is_optimised_by_gcc();
  };
  EXPECT(is_told("GNU C17 12.2.0 -march=x86-64 -g -O2 -fopenmp -fasynchronous-unwind-tables"), true);
  EXPECT(is_told("GNU Fortran2008 12.2.0 -O3 -fopenmp"), true);
  EXPECT(is_told("GNU C17 12.2.0 -O2 -Og -fopenmp"), false);
  EXPECT(is_told("GNU C17 12.2.0 -g -fopenmp"), false);
  EXPECT(is_told("GNU C17 12.2.0 -O2"), false);
  EXPECT(is_told("clang version 19 -O2 -fopenmp"), false);
}

TEST(a_path_of_a_module_ends_at_a_zero) {
  MadeLog log;
  std::string path = log.folder + "/list", line("10 20 30 module /a\0b\n", 22);
  FILE *file = fopen(path.c_str(), "w");
  fwrite(line.data(), 1, line.size(), file);
  fclose(file);
  ModulesOfRun modules;
  modules.read(path, "");
  EXPECT(modules.of(reinterpret_cast<const void *>(0x20))->path, std::string("/a"));
}
