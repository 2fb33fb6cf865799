// The records of one thread of a log. What is no record of the runtime's is added up on the way.
#pragma once
#include <array>
#include <cstdio>
#include <memory>
#include <string>
#include <vector>

#include "log_damage.hpp"
#include "log_reader.hpp"
#include "logged_samples.hpp"

class ThreadReader : public Records {
 public:
  ThreadReader(const std::string &path, unsigned worker, const log_form::Head &head, const LoggedPaths *paths = nullptr,
               std::vector<Sample> samples = {});
  const Record *next() override;

 private:
  struct Raw {
    log_form::RawRecord record;
    int64_t processor;
    RecordKind record_kind() const { return log_form::record_kind_of(record.word); }
    unsigned detail() const { return static_cast<unsigned>(record.word >> (log_form::code_bits + 8)); }
    uint64_t code() const { return record.word & log_form::code_mask; }
    uint64_t path() const {
      uint64_t number = log_form::path_of(code());
      return number && (record_kind() == RecordKind::Create || record_kind() == RecordKind::LoopBegin) ? number : 0;
    }
    const void *place() const { return reinterpret_cast<const void *>(code()); }
    uint64_t wide() const { return record.task | uint64_t{record.other} << 32; }
  };
  struct Close {
    void operator()(FILE *open) const { fclose(open); }
  };
  std::unique_ptr<FILE, Close> file, last;  // of whole blocks; of the block that was not full
  bool by_processor, leaves_out;
  int64_t in_a_record;
  TickTime time;
  const LoggedPaths *paths;  // that are listed
  std::vector<char> buffer;
  size_t at = 0, filled = 0;
  uint64_t left = 0;  // bytes of `file`
  uint64_t before = 0;  // bytes of it before the block that is read
  bool is_full = false;  // the block that is read
  RecordsLookedAt looked_at;
  size_t reported = 0;  // records so far that say what runs
  struct Team {
    uint32_t region;
    bool is_initial;  // the code outside of regions
  };
  std::vector<Team> teams;  // that the thread is in, innermost last
  struct Like {
    uint64_t word;
    uint32_t task;
  };
  std::array<Like, log_form::slots> liked{};  // of long records, by their slots
  Like got{};  // of the lock that it got last
  uint64_t ticks = 0;  // of the record before
  uint32_t current = 0;  // the task that the thread is in
  Raw raw{};
  Record record{};
  std::vector<Sample> samples;
  size_t sampled = 0;  // of these told
  uint64_t slow_since = 0, slow_until = 0;  // ticks: the last time that the recorder took longer than a record
  bool is_read = false;  // `raw`, and it is not told yet

  bool is_left_out(uint64_t tick) const;
  const Record &tell_sample();
  bool fill();
  bool read();
  size_t read_here();
  void look_at();
  [[noreturn]] void refuse(const std::string &why) const;
  void read_short(log_form::ShortRecord record);
  size_t read_long();
  void keep_long();
  void read_items(uint64_t count);
  int64_t cost_clock() const { return by_processor ? raw.processor : time.wall(raw.record.at); }
  Passed passed() const;
  void leave_out(const Passed &passed);
  bool take();
  bool is_in_a_region() const;
  void begin_region();
  void end_region();
  void get_lock();
  void leave_lock();
  void fill_record();
  const Record &tell();
  const Record &tell_plain();
};
