import unittest
from collections import Counter
from dataclasses import replace
from types import SimpleNamespace

from spanprof.diagnosis.calls import RUNTIME, Sampled
from spanprof.diagnosis.causes import TABLE
from spanprof.diagnosis.changes import single
from spanprof.diagnosis.diagnose import Diagnosis, Step, diagnose
from spanprof.diagnosis.facts import Held, Region
from spanprof.diagnosis.losses import Loss
from spanprof.diagnosis.names import Names, Suspect, block_end, items_in
from spanprof.diagnosis.output import as_json
from spanprof.diagnosis.places import AFTER_REGION, OF_THREADS, OWN, SERIAL, SHARE, TASK, Place
from spanprof.diagnosis.sentences import (WIDTH, after_words, called_inside, change_sentence, first_digits, joined,
                                          less_locking, lost_sentence, short_lines, shortened, speed_words, sum_lines,
                                          times_of, waits, who_asked)
from spanprof.diagnosis.tests.worked import MS, facts, place
from spanprof.source_lines import Line

SOURCE = """static void tone(float *d, int n) {
  work(d);
}
int main(int count, char **words) {
  fill();
  #pragma omp parallel
  #pragma omp single
  for (;;) {
    #pragma omp task depend(in: b[0]) \\
        depend(inout: tab[f(0, 1)]) depend(out: d[0])
    tone(d, n);
    #pragma omp taskwait  // all of them
    more();
    rest();
  }
}""".split("\n")
SOURCES = SimpleNamespace(lines_of=lambda name: SOURCE if name == "image.c" else [])
TASKS = "task at image.c:9"


def tone():
    one = place(TASKS)
    one.items.update({("in", "a1"): 1, ("inout", "a0"): 8, ("inout", "a2"): 1})
    one.positions = {("in", "a1"): 0, ("inout", "a0"): 0, ("inout", "a2"): 1}
    return one


def begins():
    one = place("the beginning", SERIAL, cost=50 * MS, pieces=1, tasks=0)
    one.ends["image.c:6"] = 1
    return one


def waiting():
    one = place("after taskwait at image.c:12", SERIAL, tasks=0)
    one.ends[""] = 1
    return one


FUNCTIONS = {"image.c:6": "main", "image.c:9": "main", "image.c:12": "main"}


def found(**parts):
    return facts([tone(), begins(), waiting()], functions=FUNCTIONS, **parts)


class Named(unittest.TestCase):
    def setUp(self):
        self.facts = found(locks=[Held("image.c:13", "critical", 9, 1, 2)])
        self.names = Names(self.facts, SOURCES)

    def test_tasks_by_what_they_call(self):
        self.assertEqual(self.names.place(TASKS), "image.c:9 (tone)")
        self.assertEqual(Names(self.facts, None).place(TASKS), "image.c:9")

    def test_serial_code_by_its_function_and_lines(self):
        self.assertEqual(self.names.place("the beginning"), "main (image.c:4-6)")
        self.assertEqual(Names(self.facts, None).place("the beginning"), "main (before image.c:6)")
        self.assertEqual(self.names.place("after taskwait at image.c:12"), "main (image.c:13-14)")

    def test_waits_and_locks(self):
        self.assertEqual(self.names.place("taskwait at image.c:12"), "the taskwait at image.c:12")
        self.assertEqual(self.names.place("image.c:13"), "critical at image.c:13")
        self.assertEqual(self.names.place("the barrier of the region"), "the barrier of the region")

    def test_items_as_the_source_spells_them(self):
        one = self.facts.places[TASKS]
        self.assertEqual(self.names.item(one, ("inout", "a0")), "inout: tab[f(0, 1)]")
        self.assertEqual(self.names.item(one, ("inout", "a2")), "out: d[0]")
        self.assertEqual(Names(self.facts, None).item(one, ("inout", "a2")), "inout: one item")

    def test_items_of_a_directive(self):
        self.assertEqual(items_in("depend(USES: a) depend(inout: b)"), {})
        self.assertEqual(items_in("depend(iterator(i=0:9), in: a[i]) depend(inout: b)"), {})
        self.assertEqual(items_in("depend(in: a[i, j], b) depend (out:c)"),
                         {"in": [("in", "a[i, j]"), ("in", "b")], "inout": [("out", "c")]})

    def test_of_gcc_turns_in_order_are_at_their_directive_in_the_loop(self):
        lines = ["static double spin(int n) {", "    return n;", "}", "int main(void) {", "    #pragma omp for ordered",
                 "    for (;;) {", "        double x = spin(i);", "        #pragma omp ordered", "        sum += x;",
                 "    }", "}"]
        sources, name = SimpleNamespace(lines_of=lambda file: lines), "turns of the loop at image.c:4"
        run = facts([place(name, SHARE)], is_of_gcc=True, locks=[Held("image.c:2", "ordered", 9, 1, 9)])
        self.assertEqual(Names(run, sources).place("image.c:2"), "ordered at image.c:8")
        self.assertEqual(Names(run, None).place("image.c:2"), "ordered at image.c:2")
        lines[7] = ""
        self.assertEqual(Names(run, sources).at("image.c:2"), "image.c:5")
        run.is_of_gcc = False
        self.assertEqual(Names(run, sources).place("image.c:2"), "ordered at image.c:2")

    def test_short_ordered_code_waits_for_its_turn(self):
        lock = Held("image.c:8", "ordered", 64, 10 * MS, 300 * MS)
        run = facts(locks=[lock])
        for schedule, change in (("static", "schedule(static, 1) for the loop of ordered at image.c:8"),
                                 ("dynamic", "a loop of its own for ordered at image.c:8, after it"),
                                 ("static, 1", "a loop of its own for ordered at image.c:8, after it")):
            names = Names(run, None)
            names.ordered_loops = lambda: [(None, "for ordered schedule(%s)" % schedule)]
            self.assertEqual(less_locking(run, names, lock, "do less"), change)
        lock.inside = 90 * MS
        self.assertEqual(less_locking(run, Names(run, None), lock, "do less"), "do less: compute before it")

    def test_the_function_that_is_called_inside_a_lock(self):
        critical = ["void report() {", "  prepare();", "  #pragma omp critical", "  {", "    fflush(out);", "  }", "}"]
        lock = ["void report() {", "  prepare();", "  omp_set_lock(&all);", "  fflush(out);", "  omp_unset_lock(&all);",
                "  fclose(out);", "}"]
        flush, prepare = ("main", "report()", "IO_fflush@libc.so.6"), ("main", "report()", "prepare()")
        close = ("main", "report()", "fclose@libc.so.6")
        for lines, kind, ran, called in (
                (critical, "critical", {flush: 6000, prepare: 5000}, "fflush"),
                (critical, "critical", {flush: 4000}, ""), (critical, "critical", {flush: 6000, prepare: 9000}, ""),
                (lock, "omp_lock", {flush: 6000}, "fflush"), (lock, "omp_lock", {close: 6000}, ""),
                ([], "critical", {flush: 6000}, "")):
            held = Held("image.c:3", kind, 64, 10 * MS, 300 * MS)
            run = facts([place(TASKS)], locks=[held], functions={"image.c:3": "report()"},
                        calls=Sampled({TASKS: ran}, {}))
            names = Names(run, SimpleNamespace(lines_of=lambda name, lines=lines: lines))
            self.assertEqual(called_inside(run, names, held), called)

    def test_a_block_ends_where_it_closes(self):
        self.assertEqual(block_end(SOURCE, 13), 14)


class Sentences(unittest.TestCase):
    def test_the_short_form(self):
        run = found(starved=200 * MS, starved_by={TASKS: 100 * MS, "the beginning": 100 * MS}, coverage=0.999)
        lines = short_lines(diagnose(run), Names(run, SOURCES), "spanprof-record --all")
        self.assertEqual(lines, [
            "image: 100 ms on 4 threads. At best 50.0 ms.",
            "lost  25 %  8 tasks of image.c:9 (tone) are serialised: all have depend(inout: tab[f(0, 1)])",
            "sure  1 run, 99.9 % of the program seen",
            "      not known: whether atomics or shared memory slow it: --full",
            "more  spanprof-record --all"])

    def test_page_faults_are_reported_where_they_are_most_of_it(self):
        at = " in image.c:9 (tone)"
        for faults, reported in ((90000, "85 % of processor time is in the kernel: 90,000 page faults" + at),
                                 (600, "85 % of processor time is in the kernel: system calls" + at)):
            run = found(usage={"user_ns": 60 * MS, "system_ns": 340 * MS, "minor_faults": faults})
            self.assertEqual(lost_sentence(run, Names(run, SOURCES), Loss("system", TASKS, 1)), reported)
        run.calls = Sampled({TASKS: {("main", "tone", "munmap@libc.so.6"): 9000, ("main", "read@libc.so.6"): 5000}}, {})
        self.assertEqual(lost_sentence(run, Names(run, SOURCES), Loss("system", TASKS, 1)),
                         "85 % of processor time is in the kernel: mapping memory" + at)

    def test_page_faults_in_the_copies_of_data_that_tasks_have(self):
        after, reuse = "after creating a task at image.c:9", "reuse memory: no large malloc, mmap or free in each task"
        own, runtime = {("main", "tone"): 300000}, {("main", RUNTIME): 300000}
        run = found(usage={"user_ns": 60 * MS, "system_ns": 340 * MS, "minor_faults": 90000})
        run.places[after] = Place(after, TASK, "image.c:9", cost=300 * MS, pieces=8)
        for line, ran, reported in ((9, own, "smaller firstprivate data at image.c:9: a pointer, or shared"),
                                    (9, runtime, reuse), (8, own, reuse)):
            run.calls = Sampled({after: ran}, {}, at={after: {"image.c:%d" % line: 300000}})
            step = Step("system", TASKS, 2, 1, 1, 1)
            self.assertEqual(change_sentence(run, Names(run, SOURCES), step), reported)

    def test_nothing_is_to_be_done_about_an_efficient_program(self):
        run = found()
        reported = diagnose(run)
        self.assertEqual([line[:4] for line in short_lines(reported, Names(run, SOURCES))][:3],
                         ["imag", "lost", "sure"])
        self.assertIsNone(as_json(reported, Names(run, SOURCES))["diagnosis"][0]["change"])

    def test_of_a_busy_machine_to_record_again_and_what_the_rest_was(self):
        run = found(preempted=200 * MS)
        lines = short_lines(diagnose(run), Names(run, SOURCES))
        self.assertEqual(lines[:4], [
            "image: 100 ms on 4 threads, 50.0 ms undisturbed. At best 50.0 ms.",
            "lost  50 %  other programs used the processors: record again on an idle machine",
            "            little: threads ran code 100 % of the rest, as far as one run shows",
            "sure  1 run, machine busy: 50 %"])
        run.stolen = 0.031
        self.assertEqual(short_lines(diagnose(run), Names(run, SOURCES))[3],
                         "sure  1 run, machine busy: 50 %, its host took 3 %")
        run.calls = Sampled({TASKS: {("main", "tone"): 9 * 4000}}, {})
        self.assertIn("100 % of it in tone", short_lines(diagnose(run), Names(run, SOURCES))[2])
        run.calls = Sampled({TASKS: {("main", "[libc.so.6]"): 9 * 4000}}, {}, {}, {TASKS: {"image.c:9": 18000}})
        self.assertIn("50 % of it at image.c:9", short_lines(diagnose(run), Names(run, SOURCES))[2])
        run.calls = Sampled({TASKS: {("main", "[libc.so.6]"): 0}}, {}, {}, {TASKS: {"image.c:9": 18000}})
        self.assertIn("as far as one run shows", short_lines(diagnose(run), Names(run, SOURCES))[2])

    def test_what_went_wrong_has_a_line(self):
        run = found()
        lines = short_lines(diagnose(run), Names(run, SOURCES), news=["the log is cut", "and so on"])
        self.assertIn("note  the log is cut (and 1 more: --all)", lines)

    def test_what_one_run_does_not_show_is_suspected_of_an_atomic_in_the_source(self):
        run = found()
        run.places[TASKS].cost = 200 * MS
        lines = ["    sum.fetch_add(tone(d, n));" if number == 11 else line for number, line in enumerate(SOURCE, 1)]
        reported = short_lines(diagnose(run), Names(run, SimpleNamespace(lines_of=lambda name: lines)))
        self.assertIn("little: threads ran code 100 % of the time, with the atomic at image.c:11", reported[1])
        self.assertIn("whether the atomic at image.c:11 slows it: --full", reported[3])
        self.assertIsNone(Names(run, None).suspect())

    def test_no_atomic_is_suspected_that_no_sample_met(self):
        run = found()
        run.places[TASKS].cost = 200 * MS
        lines = ["    sum.fetch_add(1);" if number == 11 else line for number, line in enumerate(SOURCE, 1)]
        names = Names(run, SimpleNamespace(lines_of=lambda name: lines))
        for at, is_suspected in ((11, True), (12, True), (10, False), (40, False)):
            run.calls = Sampled({}, {}, at={TASKS: {"image.c:%d" % at: 400000}})
            self.assertEqual(bool(names.suspect()), is_suspected)

    def test_the_number_of_chunks_is_no_more_exact_than_it_is_known(self):
        self.assertEqual(list(map(first_digits, (7, 42, 999, 1178648))), [7, 42, 990, 1100000])

    def test_in_place_of_what_is_contended(self):
        found = [Suspect("", "a.c:9", True), Suspect("part[me]", "a.c:9")]
        self.assertEqual(list(map(str, found)), ["the atomic at a.c:9", "part[me] next to others' (a.c:9)"])
        self.assertEqual(str(Suspect("part[omp_get_thread_num()]", "a.c:9")), "part[..] next to others' (a.c:9)")
        self.assertEqual([one.instead for one in found + [Suspect("", "a.c:9")]], [
            "a reduction in place of the atomic at a.c:9", "keep part[me] (a.c:9) in a local variable",
            "keep what a.c:9 writes in a local variable"])

    def test_what_samples_show_is_contended_is_reported_with_its_line(self):
        run = found()
        run.places[TASKS].cost = 300 * MS
        ran = {("main", "tone"): 10 * 4000}
        run.calls = Sampled({TASKS: ran}, {}, {TASKS: Counter({"image.c:11": 24000, "image.c:12": 8000})})
        lines = short_lines(diagnose(run), Names(run, SOURCES))
        self.assertEqual(lines[0], "image: 100 ms on 4 threads. At best about 40.0 ms.")
        self.assertEqual(lines[1:3], [
            "lost  60 %  threads write the same cache lines at once: image.c:11 and 12",
            "do    keep what image.c:11 writes in a local variable                        100 ms -> about 40.0 ms"])
        self.assertIn("not known: what it costs on one thread: --full", lines[4])
        run.calls = run.calls._replace(at={TASKS: Counter({"image.c:11": 28000, "image.c:12": 12000})})
        lines = short_lines(diagnose(run), Names(run, SOURCES))
        self.assertTrue(lines[2].endswith(" 100 ms -> 25.0 ms to 82.0 ms"), lines[2])

    def test_where_lines_pass_between_threads_no_time_is_the_least(self):
        step = Step("spin", TASKS, 100 * MS, 50 * MS, 50 * MS, 60 * MS)
        self.assertEqual([after_words(step), after_words(replace(step, low=0))], ["at best 50.0 ms", "about 50.0 ms"])

    def test_code_that_streams_and_shares_no_lines_lacks_bandwidth(self):
        run = found(cost_on_one={TASKS: 10 * MS}, usage={"user_ns": 1, "system_ns": 0, "peak_bytes": 1 << 28})
        step = Step("memory", TASKS, 100 * MS, 50 * MS, 50 * MS, 60 * MS)

        def reported():
            return [lost_sentence(run, Names(run, SOURCES), Loss("memory", TASKS, 1)),
                    change_sentence(run, Names(run, SOURCES), step)]
        run.calls = Sampled({TASKS: {("main", "tone"): 10 * 4000}}, {})
        self.assertEqual(reported(),
                         ["image.c:9 (tone) costs 4.0 times as much on 4 threads as on one: memory bandwidth",
                          "touch the data of image.c:9 once: fuse or block loops"])
        shared = run.calls._replace(shares={TASKS: Counter({"image.c:11": 4000})})
        for field, other in (("usage", {"peak_bytes": 1 << 25}), ("cost_on_one", {TASKS: 25 * MS}),
                             ("calls", Sampled({}, {})), ("calls", shared)):
            kept = getattr(run, field)
            setattr(run, field, other)
            self.assertNotIn("bandwidth", reported()[0])
            self.assertNotIn("fuse", reported()[1])
            setattr(run, field, kept)

    def test_what_costs_once_more_with_each_thread_seems_to_be_repeated(self):
        """Four threads have 400 ms of their own code, which is 100 ms on one."""
        name, begin = OWN + " at image.c:2", ["int main() {", "  #pragma omp parallel", "  {"]
        step = Step("memory", name, 100 * MS, 50 * MS, 50 * MS, 60 * MS)

        def reported(code="    fill(table);", directive=begin[1], alone=100, **more):
            lines = [begin[0], directive, begin[2], code, "  }", "  omp_get_thread_num();", "}"]
            run = facts([place(name, OF_THREADS, cost=400 * MS, pieces=4, **more)], cost_on_one={name: alone * MS},
                        regions=[Region("image.c:2", 4, 99 * MS)])
            run.calls = Sampled({name: {("main", "fill"): 400000}}, {})
            names = Names(run, SimpleNamespace(lines_of=lambda _: lines))
            return [lost_sentence(run, names, Loss("memory", name, 1)), change_sentence(run, names, step)]
        self.assertEqual(reported(), [
            "each of 4 threads seems to do all of fill (called by main): 4.0 times what it costs on one",
            "divide it among the threads of image.c:2, or do it once: single"])
        for code in ("    part(omp_get_thread_num());", "    #pragma omp single", "    next = count.fetch_add(1);"):
            self.assertIn("memory is contended", reported(code)[0])
        for other in ({"alone": 150}, {"alone": 50}, {"uneven": 80 * MS}, {"directive": "  #pragma omp parallel for"}):
            self.assertIn("memory is contended", reported(**other)[0])

    def test_memory_is_allocated_at_a_line_of_a_function(self):
        run = found(is_of_gcc=True)
        run.functions = {"image.c:12": "tone"}
        run.places[TASKS].cost = 400 * MS
        run.calls = Sampled({TASKS: {("main", "tone"): 10 * 4000}}, {}, {}, {}, {TASKS: {"image.c:12 tone": 8000}})
        lines = short_lines(diagnose(run), Names(run, SOURCES))
        self.assertEqual(lines[1:3], [
            "lost  20 %  allocating memory takes 20 % of parallel code, mostly in tone (image.c:12)",
            "do    allocate once, outside the loop, or per thread                         100 ms -> about 80.0 ms"])

    def test_serial_code_is_reported_by_the_lines_that_samples_saw(self):
        run = found()
        run.calls = Sampled({"the beginning": {("main",): 10 * 4000}}, {}, {},
                            {"the beginning": Counter({"image.c:13": 20000, "image.c:14": 16000, "image.c:5": 4000})})
        self.assertEqual(Names(run, SOURCES).place("the beginning"), "main (image.c:13-14)")
        run.calls.ran["the beginning"] = {("main", "fill"): 10 * 4000}
        self.assertEqual(Names(run, SOURCES).place("the beginning"), "fill (called by main)")

    def test_what_a_thread_does_itself_for_each_task_is_moved_into_it(self):
        run = found()
        maker = place("after creating a task at image.c:9", OF_THREADS, cost=200 * MS, pieces=400, tasks=0)
        run.places[maker.name] = maker
        run.calls = Sampled({maker.name: {("main", "split"): 10 * 4000}}, {})
        step = Step("creation", TASKS, 100 * MS, 50 * MS, 40 * MS, 60 * MS)
        self.assertEqual(change_sentence(run, Names(run, SOURCES), step), "move split into the task at image.c:9")
        maker.pieces = 400000
        self.assertIn("larger tasks at image.c:9", change_sentence(run, Names(run, SOURCES), step))

    def test_many_barriers_are_not_many_regions(self):
        run = found(regions=[Region("image.c:6", 4, 90 * MS, times=9000)])
        self.assertEqual(lost_sentence(run, Names(run, SOURCES), Loss("small_regions", "image.c:6", 1)),
                         "9,000 regions at image.c:6 take 10.0 us each: starting them costs too much")
        run.regions[0].times, name = 1, AFTER_REGION + " at image.c:6"
        run.places[name] = Place(name, SERIAL, pieces=9000)
        self.assertEqual(lost_sentence(run, Names(run, SOURCES), Loss("small_regions", "image.c:6", 1)),
                         "9,000 barriers at image.c:6, 10.0 us apart: waiting at them costs too much")

    def test_regions_of_several_places_that_are_as_short(self):
        run = found(regions=[Region("image.c:%d" % line, 4, elapsed * MS, times=times) for line, elapsed, times in (
            (6, 90, 9000), (9, 46, 8000), (12, 90, 20), (15, 900, 9000))])
        names = Names(run, SOURCES)
        self.assertEqual(lost_sentence(run, names, Loss("small_regions", "image.c:6", 1)),
                         "17,000 regions at image.c:6, 9 take 8.00 us each: starting them costs too much")
        step = Step("small_regions", "image.c:6", 100 * MS, 50 * MS, 40 * MS, 60 * MS)
        self.assertEqual(change_sentence(run, names, step), "move parallel at image.c:6, 9 out of the loop around it")

    def test_processors_that_the_program_may_not_use(self):
        run = found(threads=4, regions=[Region("image.c:6", 4, 90 * MS)])
        step = Step("too_many_threads", "image.c:6", 100 * MS, 50 * MS, 40 * MS, 60 * MS)
        for allowed, there, lost, change in (
                (1, 1, "4 threads on 1 processor, ", "use 1 thread: num_threads or OMP_NUM_THREADS"),
                (2, 8, "4 threads on 2 processors of 8, ",
                 "allow more processors (taskset, cgroup), or use 2 threads")):
            run.processors, run.of_machine = allowed, there
            self.assertEqual(lost_sentence(run, Names(run, SOURCES), Loss("too_many_threads", "image.c:6", 1)),
                             lost + "in the region at image.c:6")
            self.assertEqual(change_sentence(run, Names(run, SOURCES), step), change)

    def test_regions_inside_others_are_needed_where_few_last_at_a_time(self):
        step = Step("too_many_threads", "image.c:6", 100 * MS, 50 * MS, 40 * MS, 60 * MS)
        changes = []
        for together in (4, 1):
            run = found(regions=[Region("image.c:2", 4, 90 * MS)],
                        inner=[Region("image.c:6", 4, 90 * MS, together=together)])
            changes.append(change_sentence(run, Names(run, SOURCES), step))
        self.assertEqual(changes, ["no nesting at image.c:6: omp_set_max_active_levels(1)",
                                   "fewer threads at image.c:6: num_threads"])

    def test_lines_of_one_file_are_joined(self):
        self.assertEqual(joined([Line("a.c", 12), Line("a.c", 9), Line("a.c", 10)]), "a.c:9, 10 and 12")
        self.assertEqual(joined([Line("a.c", 12), Line("b.c", 9)]), "a.c:12 and b.c:9")

    def test_of_a_lock_of_the_system_only_the_waits_are_counted(self):
        self.assertEqual([times_of(Held("a.c:1", kind, 9000, 1, 2)) for kind in ("critical", "mutex")],
                         ["entered 9,000 times", "9,000 times"])

    def test_no_cause_of_one_thread(self):
        run = found(threads=1, asked=1)
        lines = short_lines(diagnose(run), Names(run, SOURCES))
        self.assertEqual(len(lines), 3)
        self.assertEqual(lines[-1].strip(), "not known: what more threads would bring: record on more")

    def test_eight_lines_of_a_hundred_columns_for_each_kind(self):
        run = found(regions=[Region("image.c:6", 2, MS)], locks=[Held("image.c:13", "critical", 9, 1, 2)], asked=4,
                    usage={"user_ns": 1, "system_ns": 9, "minor_faults": 5}, cost_on_one={TASKS: 10 * MS})
        for cause in TABLE:
            for name in (TASKS, "the beginning", "image.c:13", "image.c:6", "taskwait at image.c:12", ""):
                loss = Loss(cause.kind, name, 50 * MS)
                steps = [Step(cause.kind, name, 100 * MS, 50 * MS, 40 * MS, 60 * MS)] * 3
                reported = Diagnosis(run, [loss], [loss, loss], steps, steps, 1)
                lines = short_lines(reported, Names(run, SOURCES), "m" * 99)
                self.assertLessEqual(len(lines), 8)
                self.assertTrue(all(len(line) <= WIDTH for line in lines), lines)
                self.assertNotIn("{", "".join(lines))

    def test_each_change_that_is_tried_has_a_sentence(self):
        run = found()
        run.places[TASKS].moving_at.add(0)
        for option, word, kind, reported in (
                ("in-for-inout", "a0", "dependence",
                 "depend(in: tab[f(0, 1)]) at image.c:9 if only read, or a copy for each"),
                ("read-only", TASKS, "dependence", "depend(in: tab[f(0, 1)]) at image.c:9 if only read"),
                ("drop-depend", TASKS, "dependence",
                 "finer depend items at image.c:9, or none if no order is needed"),
                ("drop-wait", "taskwait at image.c:12", "wait",
                 "remove the taskwait at image.c:12 if no result is needed yet"),
                ("defer", TASKS, "undeferred", "defer more tasks at image.c:9: change its if or final"),
                ("task", "after taskwait at image.c:12", "too_few_tasks",
                 "make main (image.c:13-14) a task of its own"),
                ("split", "the beginning=4", "serial", "parallelise main (image.c:4-6): loop or tasks"),
                ("split", TASKS + "=4", "imbalance", "divide the longest tasks at image.c:9 (tone)")):
            change = single(option, word)
            step = Step(kind, TASKS if option == "in-for-inout" else change.place, 2, 1, 1, 1, 1.0, change)
            self.assertEqual(change_sentence(run, Names(run, SOURCES), step), reported)

    def test_what_takes_turns_is_reported_of_all_tasks(self):
        run = found()
        one = run.places[TASKS]
        one.items = Counter({("inout", "a%d" % number): 4 for number in range(2)})
        one.items.update({("inout", "b%d" % number): 1 for number in range(8)})
        one.positions = {item: int(item[1][0] == "b") for item in one.items}
        self.assertRegex(lost_sentence(run, Names(run, SOURCES), Loss("dependence", TASKS, 9)),
                         r"are serialised: all have depend\(inout: tab\[f\(0, 1\)\]\)$")

    def test_tasks_outside_of_regions_want_one(self):
        run, step = found(tasks_in_regions=False), Step("undeferred", TASKS, 2, 1, 1, 1, 1.0, single("defer", TASKS))
        self.assertEqual(change_sentence(run, Names(run, SOURCES), step),
                         "create the tasks of image.c:9 inside parallel and single")

    def test_a_task_that_goes_on_after_it_has_created_another_could_create_more(self):
        rest = "after creating a task at image.c:9"
        run = facts([tone(), Place(rest, TASK, "image.c:9", cost=9 * MS, pieces=1, largest=9 * MS)])
        step = Step("too_few_tasks", rest, 2, 1, 1, 1, 1.0, single("split", rest + "=4"))
        self.assertEqual(change_sentence(run, Names(run, SOURCES), step),
                         "create more tasks at image.c:9: a lower cutoff")

    def test_the_sum_is_the_whole(self):
        run = found(starved=200 * MS, starved_by={TASKS: 200 * MS}, cost_on_one={TASKS: 1})
        reported = sum_lines(diagnose(run), Names(run, SOURCES))
        self.assertIn("code as on one thread (measured)", reported[0])
        self.assertIn("50.0 % dependences: image.c:9 (tone) (measured)", reported)
        self.assertAlmostEqual(sum(float(line.split()[0]) for line in reported), 100, places=0)

    def test_who_asked_for_too_few_threads(self):
        few = [Region("image.c:20", 1, 80 * MS, 1), Region("image.c:30", 2, 20 * MS, 4),
               Region("image.c:40", 4, 9 * MS, 4)]
        run = facts([tone()], regions=few, asked=4)
        self.assertEqual([who_asked(run, region) for region in few[:2]],
                         [": the program asks for 1", ": OMP_DYNAMIC, OMP_THREAD_LIMIT"])
        self.assertEqual(who_asked(run, Region("image.c:20", 2, MS)), ": num_threads, OMP_NUM_THREADS")
        self.assertEqual(lost_sentence(run, Names(run, None), Loss("too_few_threads", "image.c:20", MS)),
                         "1 thread in the region at image.c:20 and in 1 other: 4 can run")
        for teams, words in (({4: MS, 2: MS}, "2 or 4 threads"), ({4: MS, 3: MS, 1: MS}, "1 to 4 threads")):
            run = facts([tone()], regions=[Region("image.c:9", 4, 90 * MS, teams=teams)])
            self.assertEqual(lost_sentence(run, Names(run, None), Loss("too_few_threads", "image.c:9", MS)),
                             words + " in the region at image.c:9: 4 can run")

    def test_a_region_inside_another_that_got_one_thread(self):
        run = facts([tone()], denied={"image.c:9": 200 * MS})
        step = Step("too_few_threads", "image.c:9", 100 * MS, 50 * MS, 40 * MS, 60 * MS)
        self.assertEqual(lost_sentence(run, Names(run, None), Loss("too_few_threads", "image.c:9", MS)),
                         "1 thread in the region at image.c:9: nested parallelism is off")
        self.assertEqual(change_sentence(run, Names(run, None), step),
                         "allow nesting at image.c:9: omp_set_max_active_levels(2)")

    def test_places_without_lines_by_their_functions(self):
        loop = place(OWN + " at void A::tone<..>(int)+0x7f", OF_THREADS, tasks=4)
        nameless = place("after the barrier of the region at [image]+0x3a", SERIAL, tasks=0)
        start = place("the beginning", SERIAL, tasks=0)
        start.ends["[image]+0x3a"] = 1
        task = place("task at sort.part.3+0x7e")
        run = facts([loop, nameless, start, task])
        names = Names(run, None)
        self.assertEqual([names.at(loop.name), names.at(task.name), names.place(task.name)],
                         ["A::tone", "sort", "sort"])
        self.assertEqual([names.place(one.name) for one in (nameless, start)],
                         ["code after image+0x3a", "code before image+0x3a"])
        self.assertEqual(names.place("taskwait at f(int)+0x1"), "the taskwait at f")
        reported = Diagnosis(run, [], [Loss("serial", nameless.name, 50 * MS)], [], [], 1)
        self.assertIn("not known: the names of its functions", "".join(short_lines(reported, names)))

    def test_samples_without_names_ask_for_these(self):
        for ran, is_asked in ((("main", "[plink1.9]"), True), (("main", "tone"), False)):
            run = facts([place("the beginning", SERIAL, tasks=0)], calls=Sampled({"the beginning": {ran: 9000}}, {}))
            reported = Diagnosis(run, [], [Loss("efficient", "", 50 * MS)], [], [], 1)
            self.assertEqual("the names of its functions" in "".join(short_lines(reported, Names(run, None))), is_asked)

    def test_what_to_do_for_an_uneven_loop(self):
        turns, dynamic = "turns of the loop at image.c:9", SimpleNamespace(
            lines_of=lambda name: ["#pragma omp for schedule(nonmonotonic: dynamic, 4)"] * 9)
        before = SimpleNamespace(lines_of=lambda name: [""] * 7 + ["#pragma omp for schedule(dynamic)", "  for"])
        for name, sources, change in (
                (turns, SOURCES, "schedule(dynamic) at image.c:9, or smaller chunks"),
                (turns, dynamic, "smaller chunks at image.c:9, the longest first"),
                (turns, before, "smaller chunks at image.c:9, the longest first"),
                ("a section at image.c:9", SOURCES, "smaller sections at image.c:9, the longest first")):
            run = facts([place(name, SHARE)])
            step = Step("loop_schedule", name, 2, 1, 1, 1, 1.0, None)
            self.assertEqual(change_sentence(run, Names(run, sources), step), change)
        run = facts([place(turns, SHARE)], few_turns={"image.c:9": [5, 4]})
        step = Step("loop_schedule", turns, 2, 1, 1, 1, 1.0, None)
        self.assertEqual(change_sentence(run, Names(run, dynamic), step),
                         "collapse the loops at image.c:9, or parallelise inside them")
        self.assertEqual(lost_sentence(run, Names(run, dynamic), Loss("loop_schedule", turns, MS)),
                         "threads wait at the end of image.c:9: too few iterations, 5 on 4 threads")
        run = facts([place(OWN + " at image.c:9", OF_THREADS)], few_turns={"image.c:9": [5, 4]})
        step = Step("loop_schedule", OWN + " at image.c:9", 2, 1, 1, 1, 1.0, None)
        self.assertIn("schedule(dynamic) at ", change_sentence(run, Names(run, SOURCES), step))
        for directive, change in (
                ("#pragma omp parallel shared(next)", "divide the longest work at image.c:9, or start it first"),
                ("#pragma omp parallel for", "schedule(dynamic) at image.c:9, or smaller chunks"),
                ("!$OMP PARALLEL DO", "schedule(dynamic) at image.c:9, or smaller chunks")):
            sources = SimpleNamespace(lines_of=lambda name, directive=directive: [directive] * 9)
            self.assertEqual(change_sentence(run, Names(run, sources), step), change)
        region = ["#pragma omp parallel", "{", "#pragma omp for", "for (int i = 0; i < n; i++)", "f(i);", "}"]
        for more, change in (([], "schedule(dynamic) at image.c:11, or smaller chunks"),
                             (region[2:5], "divide the longest work at image.c:9, or start it first")):
            lines = [""] * 8 + region[:-1] + more + region[-1:]
            sources = SimpleNamespace(lines_of=lambda name, lines=lines: lines)
            self.assertEqual(change_sentence(run, Names(run, sources), step), change)
        run.places[OWN + " at image.c:9"].uneven = run.places[OWN + " at image.c:9"].by_a_turn = MS
        self.assertEqual(change_sentence(run, Names(run, SOURCES), step),
                         "schedule(dynamic) at image.c:9, or collapse loops")
        self.assertIn("few iterations, or uneven ones", lost_sentence(run, Names(run, SOURCES), Loss(
            "loop_schedule", OWN + " at image.c:9", MS)))

    def test_several_waits_by_their_lines(self):
        names = Names(facts(), None)
        self.assertEqual(waits(names, ["taskwait at a.c:9", "taskwait at a.c:3", "taskwait at a.c:5"]),
                         "the waits at a.c:3, 5 and 9")
        self.assertEqual(waits(names, ["taskwait at a.c:9", "taskwait at b.c:3"]),
                         "the taskwait at a.c:9 and the taskwait at b.c:3")

    def test_a_line_before_the_directive_is_that_of_the_directive(self):
        run = facts([place(TASKS)], is_of_gcc=True)
        names = Names(run, SOURCES)
        self.assertEqual(names.at("task at image.c:8"), "image.c:9")
        self.assertEqual(names.item(tone(), ("inout", "a0")), "out: d[0]")
        self.assertEqual(names.place("taskwait at image.c:11"), "the taskwait at image.c:12")
        self.assertEqual(names.line("image.c:4"), ("image.c", 6, 6))

    def test_against_one_thread(self):
        self.assertEqual(speed_words(facts(true_one=[300 * MS], true_many=[100 * MS])),
                         ", 300 ms on one: 3.0 times as fast")
        self.assertEqual(speed_words(facts(true_one=[105 * MS], true_many=[100 * MS])), ", 105 ms on one: no faster")
        self.assertEqual(speed_words(facts(true_one=[50 * MS], true_many=[100 * MS])),
                         ", 50.0 ms on one: 2.0 times slower")
        self.assertEqual(speed_words(facts()), "")

    def test_where_the_place_is_not_known_it_is_that_of_most_code(self):
        run = found()
        self.assertIn("image.c:4-6", lost_sentence(run, Names(run, SOURCES), Loss("sleep", "", 1)))

    def test_a_long_line_is_cut(self):
        self.assertEqual(shortened("a b c d", 6), "a b...")


class BySamples(unittest.TestCase):
    def reported(self, loss, **sampled):
        run = found(calls=Sampled(sampled.get("ran", {}), sampled.get("slept", {})))
        return lost_sentence(run, Names(run, SOURCES), loss)

    def test_serial_code_is_named_by_its_function(self):
        ran = {"the beginning": {("main", "convert", "plasma"): 95000, ("main", "read"): 5000}}
        self.assertEqual(self.reported(Loss("serial", "the beginning", 9), ran=ran).partition(": ")[0],
                         "plasma (called by convert) runs on one thread")
        self.assertRegex(self.reported(Loss("serial", "the beginning", 9), ran=ran), ": 95 % of .* of serial code$")
        self.assertRegex(self.reported(Loss("serial", "the beginning", 9)),
                         "runs on one thread: 56 % of 90.0 ms of serial code$")
        own = facts([place(OWN + " at image.c:6", OF_THREADS)])
        self.assertRegex(lost_sentence(own, Names(own, SOURCES), Loss("serial", OWN + " at image.c:6", 9)),
                         "runs on one thread: the others wait$")

    def test_sleep_has_the_function_that_sleeps(self):
        slept = {"the beginning": {("main", "load", "read"): 9000}}
        self.assertRegex(self.reported(Loss("sleep", "the beginning", 9), slept=slept),
                         "waits in read, called by load$")
        self.assertRegex(self.reported(Loss("sleep", "the beginning", 9)), "waits for files, a network or other locks$")


class Json(unittest.TestCase):
    def test_its_fields(self):
        run = found(starved=200 * MS, starved_by={TASKS: 200 * MS}, at_locks=60 * MS, true_many=[90 * MS, 110 * MS],
                    locks=[Held("image.c:13", "critical", 9, 1, 60 * MS)])
        reported = as_json(diagnose(run), Names(run, SOURCES))
        self.assertEqual(set(reported), {"schema", "program", "times", "diagnosis", "plan", "losses", "code_share"})
        first = reported["diagnosis"][0]
        self.assertEqual(set(first), {"kind", "place", "lost_share", "lost_ms", "what", "change", "how"})
        self.assertEqual(first["place"], {"name": "image.c:13", "function": None, "file": "image.c", "lines": [13, 13]})
        self.assertEqual(set(first["change"]), {"kind", "what", "requests", "from_ms", "to_ms", "low_ms", "high_ms",
                                                "at_best"})
        self.assertEqual(reported["times"]["spread_ms"], [90.0, 110.0])
        self.assertAlmostEqual(sum(one["share"] for one in reported["losses"]) + reported["code_share"], 1, places=4)


if __name__ == "__main__":
    unittest.main()
