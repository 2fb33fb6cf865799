// convert_log LOG OUT: the texts of a recorded run, OUT.tasks and so on. What is asked for stands in the environment,
// and what is to be said comes as lines of JSON. Status 1: the log cannot be converted.
#include <signal.h>
#include <time.h>
#include <unistd.h>

#include <exception>
#include <memory>
#include <new>
#include <set>
#include <string>

#include "log_reader.hpp"
#include "options.hpp"
#include "outputs.hpp"
#include "message.hpp"
#include "table_memory.hpp"

namespace {
using log_form::Head;
using log_form::HowEnded;
using log_form::Stopped;

std::string date_of(int64_t time_of_day) {
  time_t seconds = time_of_day / 1000000000;
  tm parts{};
  gmtime_r(&seconds, &parts);
  char text[32];
  return {text, strftime(text, sizeof text, "%Y-%m-%dT%H:%M:%SZ", &parts)};
}

std::string base_name(const std::string &path) { return path.substr(path.rfind('/') + 1); }

std::vector<Remark> unseen(const Head &head) {
  std::vector<Remark> out;
  if (head.unseen & log_form::unseen_detach) out.push_back(Remark::UnseenDetach);
  if (head.unseen & log_form::unseen_target) out.push_back(Remark::UnseenTarget);
  if (head.unseen & log_form::unseen_runtime) out.push_back(Remark::UnseenRuntime);
  return out;
}

bool stopped_early(const Head &head) { return head.stopped != Stopped::Not && head.stopped != Stopped::End; }

Ending ending_of(const LogFolder &log) {
  const Head &head = log.head;
  Ending ending;
  ending.full = stopped_early(head);
  ending.killed = head.how_ended == HowEnded::Not && !ending.full;
  if (ending.full) ending.wall = log.wall(head.stop);
  else if (head.how_ended == HowEnded::InsideARegion) ending.wall = log.wall(head.end);
  if (head.costs != log_form::Costs::Processor) ending.clock = ending.wall;
  return ending;
}

const char *word_of(Stopped why) {
  if (why == Stopped::Full) return "full";
  return why == Stopped::Numbers ? "numbers" : "unwritable";
}

// Where the log ends, if that is not where the program did.
void tell_ending(const LogFolder &log, const Ending &ending) {
  int64_t recorded = std::max<int64_t>(0, ending.last - log.head.first.wall);
  if (ending.full) Message("stopped").put("why", word_of(log.head.stopped)).put("recorded", recorded);
  else if (log.is_running()) Message("running").put("recorded", recorded);
  else if (ending.killed) Message("killed").put("recorded", recorded).put("inside", ending.wall != 0);
}

std::vector<Records *> threads_of(const LogFolder &log) {
  std::vector<Records *> out;
  for (auto &thread : log.threads) out.push_back(thread.get());
  return out;
}

std::unique_ptr<CallPaths> paths_of(const LogFolder &log, const Options &options) {
  if (log.paths.all().empty() || !options.lines) return nullptr;
  std::set<const void *> calls;
  for (const Calls &path : log.paths.all()) calls.insert(path.begin(), path.end());
  Places places(&log.modules);
  places.look_up({calls.begin(), calls.end()});
  return std::make_unique<CallPaths>(log.paths.all(), places);
}

void convert(const std::string &folder, const std::string &out) {
  Options options = read_options();
  table_memory::stand_beside(out);
  LogFolder log(folder);
  const Head &head = log.head;
  options.processor_clock = head.costs == log_form::Costs::Processor;
  set_record_clock({options.processor_clock, head.in_a_record, head.costs == log_form::Costs::Own});
  std::unique_ptr<LogFolder> second;
  std::vector<Records *> threads = threads_of(log);
  bool is_known = head.how_ended != HowEnded::Not && head.end_thread < threads.size();
  Ending ending = ending_of(log);
  std::unique_ptr<CallPaths> paths = paths_of(log, options);
  Job job{options,
          threads,
          log.modules,
          out,
          base_name(head.program),
          date_of(head.time_of_day),
          head.program_start,
          log.wall(head.end),
          is_known ? &threads[head.end_thread]->log : nullptr,
          head.end_processor,
          head.is_child != 0,
          unseen(head),
          [&] {
            second = std::make_unique<LogFolder>(folder);
            return threads_of(*second);
          },
          paths.get(),
          &log.stacks};
  report(job, ending);
  tell_ending(log, ending);
}

}  // namespace

int main(int count, char **words) {
  signal(SIGXFSZ, SIG_IGN);  // then writing fails, and that is told
  if (count != 3) {
    Message("fault").put("what", "convert_log LOG OUT");
    return 1;
  }
  std::string folder = words[1];
  while (folder.size() > 1 && folder.back() == '/') folder.pop_back();
  try {
    convert(folder, words[2]);
  } catch (const std::bad_alloc &) {
    Message("fault").put("log", folder).put("what", "out of memory, and what is not written yet is not written");
    return 1;
  } catch (const std::exception &wrong) {
    Message("fault").put("log", folder).put("what", wrong.what());
    return 1;
  }
  fflush(stdout);
  _exit(0);  // what a run took is given back by the end of the process
}
