"""Random programs."""
import unittest

from spanprof.conformance.generate.constructs import constructs
from spanprof.conformance.generate.program import C_KINDS, Task, nodes, segment_count
from spanprof.conformance.generate.random_programs import RECIPES, SHAPES, random_program, seeds_in_turn
from spanprof.conformance.generate.text_reader import read_program
from spanprof.conformance.generate.text_writer import text_of

SEEDS = range(300)
CONSTRUCTS = ("if(0)", "final", "loop", "repeated item", "mergeable", "priority", "taskyield", "taskloop", "parallel",
              "taskwait with depend", "depobj", "iterator", "detach", "depend(mutexinoutset)", "num_tasks",
              "grainsize", "strict", "taskloop of any size", "reduction", "copied", "target", "cancel")


class Generation(unittest.TestCase):
    def test_one_seed_one_program(self):
        self.assertEqual(random_program(17, C_KINDS), random_program(17, C_KINDS))
        self.assertNotEqual(random_program(17, C_KINDS), random_program(18, C_KINDS))

    def test_programs_are_small_enough_and_come_back_from_their_texts(self):
        for seed in SEEDS:
            shape, body = random_program(seed, C_KINDS)
            least, most = SHAPES[shape].sizes if shape in SHAPES else (6, 5000)
            self.assertTrue(least <= segment_count(body) <= most)
            self.assertEqual(read_program(text_of(body)), body)

    def test_every_construct_turns_up(self):
        found = set().union(*(constructs(random_program(seed, C_KINDS)[1]) for seed in SEEDS))
        self.assertLessEqual({*CONSTRUCTS, "taskwait", "taskgroup", "if(0) with depend", "created by several threads",
                              *(f"depend({kind})" for kind in C_KINDS)}, found)

    def test_seeds_in_turn(self):
        seeds = list(seeds_in_turn(7, 30))
        self.assertTrue(all(seed >= 7 for seed in seeds))
        self.assertEqual(len(set(seeds)), 30)
        names = [random_program(seed, C_KINDS)[0] for seed in seeds]
        self.assertEqual(names[:2 * len(RECIPES):2], list(RECIPES))
        self.assertEqual({*names[:len(RECIPES) + len(SHAPES)]}, {*RECIPES, *SHAPES})
        self.assertEqual(list(seeds_in_turn(7, 4)), seeds[:4])

    def test_kinds_of_items(self):
        kinds = {item.kind for seed in SEEDS for node in nodes(random_program(seed, {"in", "out"})[1])
                 if isinstance(node, Task) for item in node.items}
        self.assertEqual(kinds, {"in", "out"})


if __name__ == "__main__":
    unittest.main()
