import unittest
from types import SimpleNamespace

from spanprof.diagnosis.calls import Sampled
from spanprof.diagnosis.names import Names, by_call, place_of_sleep, sleeper, sooner, threads_for_sleep, words_of_sleep
from spanprof.diagnosis.places import OF_THREADS, OWN, SERIAL
from spanprof.diagnosis.tests.worked import MS, facts, place

PLACE = "the beginning"
READS, WRITES = ("main", "load", "read@libc.so.6"), ("main", "save", "write")
NAPS = ("main", "nap", "nanosleep@libc.so.6")


class Sleeps(unittest.TestCase):
    def words(self, sampled, reported="main"):
        return words_of_sleep(facts(calls=Sampled({}, {PLACE: sampled})), PLACE, reported)

    def test_the_calls_with_most_of_it_first(self):
        self.assertEqual(by_call({READS: 9, WRITES: 1}), [(("read", "load"), 0.9), (("write", "save"), 0.1)])
        self.assertEqual(by_call({("read",): 9}), [(("read", ""), 1.0)])
        self.assertEqual(by_call({}), [])

    def test_one_call_with_most_of_it(self):
        self.assertEqual(self.words({READS: 80, WRITES: 20}), "in read, called by load")
        self.assertEqual(self.words({READS: 80}, reported="load (a.c:9)"), "in read")

    def test_mixed_sleep_is_divided(self):
        self.assertEqual(self.words({READS: 60, WRITES: 5, NAPS: 35}),
                         "in read, called by load (60 %) and nanosleep, called by nap (35 %)")

    def test_other_programs(self):
        sampled = {("main", "libc_system@libc.so.6"): 80}
        self.assertEqual(self.words(sampled), "in system for a program that it started")
        found = [sooner(facts(calls=Sampled({}, {PLACE: one})), PLACE, threads)
                 for one, threads in ((sampled, 0), ({READS: 9}, None), ({READS: 9}, 0), ({READS: 9}, 8))]
        self.assertEqual(found, [", or the longest first", ", or use more threads", "", ", or use 8 threads"])

    def test_other_programs_without_samples(self):
        """By the processor time of what it started: serial code starts several at once."""
        serial = place(PLACE, SERIAL)
        for children, words in ((90, "for a program that it started"), (50, "for files, a network or other locks")):
            run = facts([serial], asleep=100 * MS, children=children * MS, calls=Sampled({}, {}))
            self.assertEqual(words_of_sleep(run, PLACE, "main"), words)
        run.children = run.asleep
        self.assertEqual(sooner(run, PLACE, None), ", or several at once")

    def test_threads_run_code_while_others_sleep(self):
        for asleep, threads in ((0, 0), (40, 0), (200, 8), (300, 16), (390, 20)):
            self.assertEqual(threads_for_sleep(facts(asleep=asleep * MS)), threads)

    def test_without_samples(self):
        self.assertEqual(self.words({}), "for files, a network or other locks")


class Sleepers(unittest.TestCase):
    SOURCE = ["static void nap(void)", "{", "    while (!done())", "        usleep(5);   // not usleep(9)", "}", "",
              "static void wait(void) {", "    usleep(7);", "    usleep(8);", "}", "#pragma omp parallel", "work();"]

    def named(self, slept, ran):
        own = place(OWN + " at a.c:11", OF_THREADS, pieces=4)
        run = facts([own], calls=Sampled({own.name: ran}, {own.name: slept}))
        return Names(run, SimpleNamespace(lines_of=lambda _: self.SOURCE)), own.name

    def test_not_the_function_that_ran_most(self):
        slept, ran = {("main", "nap", "usleep@libc.so.6"): 9000}, {("main", "work", "step"): 90000}
        names, own = self.named(slept, ran)
        self.assertEqual((sleeper(names, own), place_of_sleep(names, own)), ("nap", "a.c:4"))
        within = {("main", "work", "step", "nap", "usleep@libc.so.6"): 9000}
        self.assertEqual(sleeper(*self.named(within, ran)), "step (called by work)")
        self.assertEqual(sleeper(*self.named({}, ran)), "step (called by work)")
        self.assertEqual(sleeper(*self.named(slept, {})), "code (a.c:12)")

    def test_the_lines_of_the_call(self):
        lines = [place_of_sleep(*self.named({(*calls, "usleep@libc.so.6"): 9000}, {})) for calls in (
            ("main", "wait"), ("main",), ("main", "nap"))]
        self.assertEqual(lines, ["a.c:8 and 9", "a.c:11", "a.c:4"])
        self.assertEqual(place_of_sleep(*self.named({("main", "nap", "read@libc.so.6"): 9000}, {})), "a.c:11")
        self.assertEqual(place_of_sleep(*self.named({}, {})), "a.c:11")


if __name__ == "__main__":
    unittest.main()
