"""No line of a summary says `proved` without saying of what, or against what the head tells."""
import itertools
import unittest

from spanprof.head import Lock, is_divided
from spanprof.record.summary import summary
from spanprof.record.tests.made_up import Answers, Head
from spanprof.remarks import read_remark, remark_of

LOCK = Lock("critical", 1, 1, 0)
OF_WHAT = ("proved of the recorded text", "proved of this text")
HEADS = {
    "threads": [dict(), dict(threads=1), dict(threads=None)],
    "divided": [dict(), dict(divided=["loops, 3 times at a.c:3"])],
    "covered": [dict(), dict(covered=10), dict(covered=None, thread_time=None), dict(covers_at_most=True)],
    "locks": [dict(), dict(locks=[LOCK], most_held=90), dict(locks=[LOCK], most_held=1)],
    "remarks": [dict()] + [dict(remarks=[remark_of(dict(remark="a", work=work, span=span))]) for work, span in (
        ("", "high"), ("", "low"), ("low", "low"), ("either", "either"), ("low", "high"))] + [
            dict(remarks=[read_remark("in words of its own")])],
    "runs": [dict(), dict(runs=5, spread={"work": (90, 100, 110), "span": (60, 70, 80)})],
}


def heads():
    """Each of all ways in which the lines of a head may come together."""
    for chosen in itertools.product(*HEADS.values()):
        yield Head(**{name: value for reported in chosen for name, value in reported.items()})


def summaries(head):
    yield summary(Answers(head=head))


def line_of(lines, name):
    return next(line for line in lines if line.startswith(name))


class Proved(unittest.TestCase):
    def test_of_what(self):
        for head in heads():
            for line in itertools.chain(*summaries(head)):
                self.assertTrue("proved" not in line or any(words in line for words in OF_WHAT), line)

    def test_nothing_on_more_threads_than_the_text_speaks_of(self):
        for head in heads():
            for lines in summaries(head):
                if is_divided(head) or head.threads == 1:
                    self.assertNotIn("proved", line_of(lines, "span ") + line_of(lines, "parallelism"))

    def test_nothing_against_a_remark(self):
        for head in heads():
            for lines in summaries(head):
                if any(remark.span in ("high", "either") for remark in head.remarks):
                    self.assertNotIn("proved", line_of(lines, "span ") + line_of(lines, "parallelism"))
                if any(remark.work in ("low", "either") for remark in head.remarks):
                    self.assertNotIn("proved", line_of(lines, "parallelism"))

    def test_a_part_is_called_one(self):
        for head in heads():
            for lines in summaries(head):
                if head.covered == 10 or head.covers_at_most and head.covered:
                    self.assertIn("of the program's thread-time", lines[0])
                    proved = [line for line in lines[5:] if "proved" in line]
                    self.assertTrue(all("a part of the program)" in line for line in proved), lines)

    def test_nothing_is_measured_in_comparison_with_a_run_that_was_not(self):
        for head in heads():
            for line in itertools.chain(*summaries(head)):
                self.assertNotIn("as fast as one", line)


if __name__ == "__main__":
    unittest.main()
