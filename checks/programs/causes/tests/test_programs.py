import os
import re
import unittest

from programs import KINDS, WITHOUT_A_PLACE, kind_of, marked, programs

HERE = os.path.dirname(os.path.dirname(os.path.abspath(__file__)))
OTHER = os.path.join(HERE, "other")


class Programs(unittest.TestCase):
    def test_a_kind_may_have_several_programs(self):
        self.assertEqual([kind_of(name) for name in ("lock", "lock_object", "wait", "waiter")],
                         ["lock", "lock", "wait", None])

    def test_marked_lines(self):
        self.assertEqual(marked("int a;\nint b; // <- cause\n// the cause\n"), (2,))

    def test_each_kind_has_a_program(self):
        for folder in (HERE, OTHER):
            names = [os.path.splitext(name)[0] for name in os.listdir(folder) if name.endswith((".c", ".cpp"))]
            for kind in KINDS:
                self.assertIn(kind, map(kind_of, names), "%s has no %s.c or .cpp" % (folder, kind))
            self.assertEqual([name for name in names if not kind_of(name)], [], "no kind of causes.py begins these")

    def test_each_program_has_a_repair_and_a_place(self):
        for one in programs(HERE) + programs(OTHER):
            with open(one.source, encoding="utf-8") as file:
                text = file.read()
            alone = one.kind in WITHOUT_A_PLACE
            self.assertEqual(bool(one.lines), not alone, one.name)
            self.assertEqual(bool(re.search(r"^#if(n?def| )\s*FIXED", text, re.M)), not alone, one.name)

    def test_chosen_by_kind_or_name(self):
        self.assertEqual([one.name for one in programs(HERE, ["lock_object"])], ["lock_object"])
        self.assertEqual([one.name for one in programs(HERE, ["lock", "serial"])],
                         ["serial", "lock", "lock_object", "lock_ordered"])


if __name__ == "__main__":
    unittest.main()
