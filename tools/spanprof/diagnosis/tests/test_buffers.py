import unittest
from types import SimpleNamespace

from spanprof.diagnosis.changes import Change, renamings, rewriting
from spanprof.diagnosis.diagnose import Step, cause_of, likely
from spanprof.diagnosis.losses import Loss
from spanprof.diagnosis.names import Names
from spanprof.diagnosis.sentences import change_sentence, lost_sentence
from spanprof.diagnosis.tests.worked import facts, place
from spanprof.whatif.requests import Request

SOURCE = """#pragma omp task depend(out: *sharp)
draw(sharp);
#pragma omp task depend(in: *sharp) depend(out: *soft) depend(inout: state)
blur(sharp, soft);
#pragma omp task depend(in: *sharp, *soft)
compare(sharp, soft);""".split("\n")
DRAW, BLUR, COMPARE = ("task at a.c:%d" % line for line in (1, 3, 5))
OF_BLUR = Request("rename", BLUR + "=a1")


def having(name, **items):
    one = place(name)
    for kind, several in items.items():
        for at, item in enumerate(several):
            one.items[kind, item], one.positions[kind, item] = 8, at
    return one


def run(lines=tuple(SOURCE)):
    places = [having(DRAW, inout=["a0"]), having(BLUR, **{"in": ["a0"], "inout": ["a1", "a2"]}),
              having(COMPARE, **{"in": ["a0", "a1"]})]
    found = facts(places)
    names = Names(found, SimpleNamespace(lines_of=lambda _: list(lines)))
    found.rewriting = rewriting(found, names)
    return found, names


class Buffers(unittest.TestCase):
    def test_what_others_read_and_the_source_says_is_only_written(self):
        found = run()[0].rewriting
        self.assertEqual({name: one.items for name, one in found.items()}, {DRAW: ["*sharp"], BLUR: ["*soft"]})
        self.assertEqual([one.requests for one in found.values()], [(Request("rename", DRAW),), (OF_BLUR,)])

    def test_nothing_where_the_source_does_not_say_so(self):
        self.assertEqual(run([line.replace("out: *", "inout: *") for line in SOURCE])[0].rewriting, {})
        self.assertEqual(run([])[0].rewriting, {})

    def test_nothing_that_tasks_of_the_place_alone_read(self):
        one = having(DRAW, **{"in": ["a0"], "inout": ["a1"]})
        one.items["in", "a1"] = 8
        self.assertEqual(rewriting(facts([one]), None), {})

    def test_many_names_among_others_are_not_renamed(self):
        found, names = run()
        more = [("inout", "b%d" % number) for number in range(9)]
        found.places[BLUR].items.update(dict.fromkeys(more, 8))
        found.places[BLUR].positions.update(dict.fromkeys(more, 0))
        self.assertNotIn(BLUR, rewriting(found, names))

    def test_related_ones_together(self):
        self.assertEqual(renamings(run()[0]), [(Request("rename", DRAW), OF_BLUR), (Request("rename", DRAW),),
                                               (OF_BLUR,)])

    def test_others_apart(self):
        found = run()[0]
        del found.places[COMPARE], found.places[BLUR].items["in", "a0"]
        self.assertEqual(renamings(found), [(Request("rename", DRAW),), (OF_BLUR,)])

    def test_a_place_with_an_equals_sign(self):
        change = Change((Request("rename", "task at a=b.c:3"), Request("rename", "task at a=b.c:3=a0")))
        self.assertEqual(change.places, ["task at a=b.c:3"] * 2)

    def test_words(self):
        found, names = run()
        change = Change(renamings(found)[0])
        self.assertEqual((cause_of(found, change), likely(found, None, change)), (("dependence", DRAW), 0.9))
        step = Step("dependence", DRAW, 2, 1, 1, 1, 1.0, change)
        self.assertEqual(change_sentence(found, names, step),
                         "a ring of buffers for *sharp and *soft at a.c:1 and 3")
        self.assertEqual(lost_sentence(found, names, Loss("dependence", BLUR, 9)),
                         "tasks of a.c:3 (blur) wait until others have read *soft")


if __name__ == "__main__":
    unittest.main()
