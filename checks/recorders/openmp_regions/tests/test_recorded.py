import unittest

from recorded import read
from structure import costs, nodes, total

TEXT = """\
# recorded: {"program": "region", "threads": 2, "clock": "wall", "unit": "ns"}
# region: {"at": "region.c:9", "number": 1, "of": 1}
omptasks 1
work 7
taskgroup {  # region.c:10
  work 1
  task if(0) depend(inout: a0, a1) depend(in: a2) {  # region.c:11
    work 30
  }
}
taskwait  # region.c:9
"""

PARTS = """\
# region: {"at": "region.c:9", "number": 1, "of": 2}
omptasks 1
taskgroup {
  task {  # one of the region's threads
    task {  # __kmpc_taskloop+0xe0
    }
  }
  task {  # one of the region's threads
    work 4
  }
}
taskgroup {
  task {  # one of the region's threads
    taskwait  # region.c:12
  }
}
"""


class Reading(unittest.TestCase):
    def test_one_body(self):
        text = read(TEXT)
        (body,), = text.phases
        group, wait = nodes(body)
        task, = nodes(group.body)
        self.assertEqual((text.line, group.line, task.line, costs(body)), (9, 10, 11, [7, 0, 0]))
        self.assertEqual(task.depend, [("inout", "a0"), ("inout", "a1"), ("in", "a2")])
        self.assertTrue(task.undeferred)
        self.assertEqual((wait.kind, total(body)), ("taskwait", 38))

    def test_the_line_of_the_region_is_none(self):
        (body,), = read(TEXT).phases
        self.assertEqual(nodes(body)[1].line, 0)

    def test_bodies_of_threads(self):
        text = read(PARTS)
        self.assertEqual(text.line, 9)
        self.assertEqual([len(bodies) for bodies in text.phases], [2, 1])
        self.assertEqual(nodes(text.phases[0][0])[0].line, 0)
        self.assertEqual(nodes(text.phases[1][0])[0].line, 12)


if __name__ == "__main__":
    unittest.main()
