import unittest

from draw import MOST_TASKS, draw, tasks_of
from program import Repeat, Task, Taskloop, Taskwait, Yield, walk
from shrink import shrink
from write_c import write_c

SEEDS = range(300)


def own_code(body):
    """What stands in a task's own code, and not in that of its children."""
    for statement in body:
        yield statement
        if not isinstance(statement, Task):
            yield from own_code(getattr(statement, "body", []))


class Drawing(unittest.TestCase):
    @classmethod
    def setUpClass(cls):
        cls.drawn = [draw(seed) for seed in SEEDS]

    def test_a_seed_gives_one_program(self):
        for drawn in self.drawn[:20]:
            self.assertEqual(drawn, draw(drawn.seed))

    def test_every_statement_is_drawn(self):
        kinds = {type(statement).__name__ for drawn in self.drawn for statement in walk(drawn.statements)}
        self.assertEqual(kinds, {"All", "Barrier", "For", "Master", "Region", "Repeat", "Sections", "Single", "Task",
                                 "Taskgroup", "Taskloop", "Taskwait", "Work", "Yield"})

    def test_no_text_is_too_large(self):
        for drawn in self.drawn:
            self.assertLessEqual(tasks_of(drawn.statements, drawn.threads[-1]), MOST_TASKS)

    def test_what_the_runtime_gets_wrong_is_not_drawn(self):
        for drawn in self.drawn:
            for task in walk(drawn.statements):
                if isinstance(task, Task) and task.untied:
                    self.assertFalse(task.undeferred)
                    self.assertFalse(any(isinstance(s, (Yield, Repeat, Taskloop)) for s in own_code(task.body)))
                if isinstance(task, Taskwait) or isinstance(task, Task) and task.undeferred:
                    self.assertFalse({kind for kind, _ in task.depend} & {"inoutset", "mutexinoutset"})


class Writing(unittest.TestCase):
    def test_each_directive_is_on_its_line(self):
        for seed in range(50):
            statements = draw(seed).statements
            lines = write_c(statements).split("\n")
            for statement in walk(statements):
                if statement.line:
                    self.assertIn('_Pragma("omp ', lines[statement.line - 1])
                    self.assertIn("mark = %d;" % statement.line, lines[statement.line - 1])


class Shrinking(unittest.TestCase):
    def test_what_is_not_needed_is_dropped(self):
        def has_final_with_items(statements):
            return any(isinstance(s, Task) and s.final and s.depend for s in walk(statements))
        drawn = next(d for d in map(draw, SEEDS) if has_final_with_items(d.statements))
        small = shrink(drawn.statements, has_final_with_items, 100000)
        task, = [s for s in walk(small) if isinstance(s, Task)]
        self.assertEqual((len(task.depend), task.body, task.untied, task.mergeable), (1, [], False, False))


if __name__ == "__main__":
    unittest.main()
