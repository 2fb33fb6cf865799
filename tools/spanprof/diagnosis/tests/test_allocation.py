"""What allocating memory takes, by samples."""
import unittest

from spanprof.diagnosis.calls import Sampled, allocating, most_allocating, of_freeing
from spanprof.diagnosis.places import SERIAL
from spanprof.diagnosis.tests.worked import MS, facts, place

TASKS = "task at image.c:25"
# Of a tenth that walks a tree to free it half is in the allocator; of the rest a fifth.
RAN = {("main", "tour", "operator new@libstdc++.so.6"): 20000, ("main", "tour"): 60000,
       ("main", "tour", "free_tree", "cfree@libc.so.6"): 11000, ("main", "tour", "free_tree"): 9000}
LINES = {"a.cpp:39 tour": 20000, "a.cpp:26 free_tree": 11000}


class Allocating(unittest.TestCase):
    def test_what_only_frees_goes_with_it(self):
        self.assertEqual(of_freeing(RAN), {"free_tree", "cfree@libc.so.6"})
        run = facts([place(TASKS, cost=100 * MS)], calls=Sampled({TASKS: RAN}, {}, {}, {}, {TASKS: LINES}))
        self.assertEqual(sum(allocating(run).values()) // MS, 39)
        self.assertEqual(most_allocating(run), "allocation at a.cpp:39")

    def test_a_function_that_frees_and_works_is_its_own(self):
        self.assertEqual(of_freeing({**RAN, ("main", "tour", "free_tree"): 12000}), {"cfree@libc.so.6"})

    def test_serial_code_and_code_without_samples_have_none(self):
        begins = place("the beginning", SERIAL, cost=100 * MS)
        run = facts([begins, place(TASKS)], calls=Sampled({begins.name: RAN}, {}, {}, {}, {begins.name: LINES}))
        self.assertEqual((allocating(run), most_allocating(run)), ({}, ""))


if __name__ == "__main__":
    unittest.main()
