import unittest

from spanprof.program_text import as_text, statements
from spanprof.whatif.requests import Costs, Request, applied, changes, survey

TEXT = """omptasks 1
task depend(in: b) depend(inout: a) {  # m.c:3
}
task if(0) depend(inout: a, c) {  # m.c:5
work 4
}
"""


def changed(option, word):
    kept = list(statements(TEXT.splitlines(True)))
    made = changes([Request(option, word)], survey(kept), Costs(0, ""))
    return as_text(applied(kept, made)), made[0].words()


class Access(unittest.TestCase):
    def test_in_for_inout(self):
        self.assertEqual(changed("in-for-inout", "a"), (
            TEXT.replace("depend(in: b) depend(inout: a)", "depend(in: b, a)")
            .replace("depend(inout: a, c)", "depend(in: a) depend(inout: c)"),
            "2 depend items changed to in: of the name a"))

    def test_deferred(self):
        self.assertEqual(changed("defer", "m.c:5"), (TEXT.replace(" if(0)", ""),
                                                     "1 undeferred task deferred: task at m.c:5"))


if __name__ == "__main__":
    unittest.main()
