"""Results as JUnit's XML."""
import collections
import unittest
import xml.etree.ElementTree

from spanprof.conformance.report.results import Outcome, Results
from spanprof.conformance.report.texts import junit


def results():
    found = Results()
    found.seconds = 61.4
    found.outcomes = {
        ("depend_chain", "tied"): Outcome(collections.Counter(runs=8)),
        ("taskwait_twice", "untied"): Outcome(collections.Counter(runs=8, hung=2, refused=1), "event 3: `<` \x01"),
        ("priority_flat", "tied"): Outcome(collections.Counter(runs=8), "", ["found/priority_no_end.c"])}
    return found


class JUnit(unittest.TestCase):
    def test_cases(self):
        suite = xml.etree.ElementTree.fromstring(junit(results()))
        self.assertEqual((suite.get("tests"), suite.get("failures"), suite.get("skipped")), ("3", "1", "1"))
        reported = {case.get("name"): [part.get("message") for part in case] for case in suite}
        self.assertEqual(reported, {"depend_chain": [], "priority_flat": ["expected: found/priority_no_end.c"],
                                    "taskwait_twice": ["3 of 8 runs failed: hung 2, refused 1"]})
        self.assertEqual(suite[2].get("classname"), "spanprof-conformance.untied")
        self.assertEqual(suite.find("testcase/failure").text, "event 3: `<` ?")


if __name__ == "__main__":
    unittest.main()
