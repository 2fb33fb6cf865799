import unittest

from spanprof.diagnosis.diagnose import Step, diagnose, on_one
from spanprof.diagnosis.facts import Region
from spanprof.diagnosis.names import Names
from spanprof.diagnosis.places import OF_THREADS, OWN
from spanprof.diagnosis.sentences import change_sentence
from spanprof.diagnosis.tests.worked import MS, facts, place

AT = "image.c:20"


def run(code, **more):
    """20,000 regions in 90 of 100 ms, each of 4.5 us."""
    own = place("%s at %s" % (OWN, AT), OF_THREADS, cost=code * MS, pieces=80000, tasks=80000)
    region = Region(AT, 4, 90 * MS, 4, 20000, code=code * MS)
    return facts([own], code=(code + 10) * MS, starved=(390 - code) * MS, starved_by={own.name: (390 - code) * MS},
                 regions=[region], **more)


class OnOneThread(unittest.TestCase):
    def after(self, found, kind="small_regions"):
        return [one.after // MS for one in on_one(found, Step(kind, AT, 100 * MS, 30 * MS, 30 * MS, 60 * MS))]

    def test_one_thread_takes_as_long_as_the_code_of_all(self):
        self.assertEqual(self.after(run(40)), [50])
        self.assertEqual(self.after(run(40, recorder=20 * MS)), [70])

    def test_regions_that_take_less_than_their_code_gain_from_threads(self):
        self.assertEqual(self.after(run(95)), [])
        self.assertEqual(self.after(run(80, recorder=20 * MS)), [])

    def test_other_programs_may_have_slowed_them(self):
        self.assertEqual(self.after(run(40, taken=9)), [])

    def test_of_no_other_cause(self):
        self.assertEqual(self.after(run(40), "lock"), [])

    def test_it_stands_in_place_of_the_first_change(self):
        found = run(40)
        plan = diagnose(found).plan
        self.assertEqual([(one.kind, one.threads, one.is_instead) for one in plan],
                         [("small_regions", None, False), ("small_regions", 1, True)])
        self.assertEqual(change_sentence(found, Names(found, None), plan[1]),
                         "one thread at image.c:20 is faster: if or num_threads(1)")


if __name__ == "__main__":
    unittest.main()
