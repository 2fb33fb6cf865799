"""Reports and their tables."""
import unittest

from spanprof.conformance.judge.coverage import OTHERS
from spanprof.conformance.report import tables
from spanprof.conformance.report.results import Results
from spanprof.conformance.report.tests.test_results import LARGE, SMALL, results_of
from spanprof.conformance.report.texts import Report, markdown, reproducer
from spanprof.conformance.run.campaign import Took
from spanprof.conformance.run.reproduce import Found, OneFile
from spanprof.conformance.tests.helpers import case_of, failure_of


def found_of(failure, ways=("refused, taskwait",), failed=3):
    file = OneFile("int main(void);\n", 5, 20)
    return Found(failure, "mixed-7", "omptasks 1\ntaskwait\n", file, 12, failed, 20, list(ways))


def report_of(results=None, found=()):
    results = results or results_of(LARGE, SMALL, failing=("small",))
    return Report([("compiler", "cc"), ("time", "3 s")], {"in", "out"}, results, list(found))


class Tables(unittest.TestCase):
    def test_table(self):
        self.assertEqual(tables.table(("a", "b"), [(1, "x")]), ["| a | b |", "|---|---|", "| 1 | x |"])

    def test_summary(self):
        lines = tables.summary(results_of(LARGE, SMALL, failing=("small",)), ["all"])
        self.assertEqual(lines[2:], ["| all | 2 | 2 | 8 | 80 | 1 | 0 | 0 | 0 | 0 | 0 | 0 | 0 | 0 | 0 | 0 | 0 | 0 |",
                                     "| all | 4 | 2 | 8 | 80 | 1 | 0 | 0 | 0 | 0 | 0 | 0 | 0 | 0 | 0 | 0 | 0 | 0 |"])

    def test_coverage_has_a_row_for_each_way_to_wait(self):
        lines = tables.coverage(results_of(LARGE), {"in", "out"})
        self.assertEqual(lines[0], "| rule | construct | 2 threads | 4 threads |")
        self.assertIn("| taskwait | taskwait | 0 / 0 / 2 | 0 / 0 / 2 |", lines)
        self.assertIn("| dependence | out, then in | 0 / 0 / 0 | 0 / 0 / 0 |", lines)
        self.assertEqual(len(lines), 2 + 6 + 6 + len(OTHERS))

    def test_untried(self):
        held, close = tables.untried(results_of(LARGE), set())
        self.assertIn("taskwait: taskwait", held)
        self.assertNotIn("taskwait: taskwait", close)

    def test_failures(self):
        self.assertEqual(tables.kinds_of_failure(Results()), [])
        lines = tables.kinds_of_failure(results_of(LARGE, SMALL, failing=("small",)))
        self.assertEqual(lines[2:], ["| refused | taskwait | tied | 2 | 2, 4 | small |"])

    def test_mutants(self):
        line = tables.mutant_line("hang", "never ends", results_of(LARGE, SMALL, failing=("small", "large")))
        self.assertEqual(line, "| `hang` | never ends | 2 | taskwait | large, small | 4 |")
        self.assertEqual(tables.matrix({"hang": ["a"], "crash": ["b", "a"]}).split("\n")[2:4],
                         ["| a | x | x |", "| b |  | x |"])

    def test_a_bar_in_a_cell_is_no_border(self):
        self.assertEqual(tables.line_of(["nproc == 1 || busy", 3]), r"| nproc == 1 \|\| busy | 3 |")

    def test_long_lists_are_cut(self):
        self.assertEqual(tables.first_few(list("abcdef")), "a, b, c, d and 2 more")


class Reports(unittest.TestCase):
    def test_markdown(self):
        text = markdown(report_of(found=[found_of(failure_of(SMALL))]), "report")
        for part in ("| compiler | cc |", "## How hard each rule was tried", "Never close:",
                     "| free | plain | 12 | 0 |", "| free | late | 4 | 2 |",
                     "spanprof-conformance shrink report-1.tasks",
                     "3 of 20 runs on 2 threads failed in the test; 5 of 20 runs of the file fail.",
                     "(schedule: late)"):
            self.assertIn(part, text)

    def test_the_last_line_is_how_long_it_took(self):
        report = report_of(found=[found_of(failure_of(SMALL))])
        report.took = Took(3, 1, 4)
        self.assertEqual(markdown(report, "report").split("\n")[-1], report.took.reported())

    def test_no_failures_no_chapters_of_them(self):
        text = markdown(report_of(results_of(LARGE)), "report")
        self.assertNotIn("## Failures", text)
        self.assertNotIn("## Smallest", text)

    def test_failure_without_a_log(self):
        failure = failure_of(case_of())
        failure.log = None
        self.assertNotIn("schedule:", "\n".join(reproducer(1, found_of(failure), "x.tasks")))


if __name__ == "__main__":
    unittest.main()
