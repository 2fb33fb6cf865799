import json
import os
import tempfile
import unittest
from unittest import mock

from spanprof.command import Fault
from spanprof.record.tests.made_up import Answers
from spanprof.run_json import run_json, write_json
from spanprof.time_breakdown import TimeBreakdown


def account():
    return TimeBreakdown(1, 9, 9, 0, 0, 0)


class Told(unittest.TestCase):
    def test_the_account(self):
        reported = run_json(Answers(), None, account(), "")
        self.assertEqual((reported["text"], reported["work"]), ("sort.tasks", 100))
        self.assertEqual(reported["account"]["parts"]["code"], 9)

    def test_without_one(self):
        reported = run_json(Answers(), None, None, "tasks did not run to their ends")
        self.assertEqual((reported["account"], reported["no account"]), (None, "tasks did not run to their ends"))

    def test_the_diagnosis_and_what_was_measured_besides(self):
        diagnosis = mock.Mock(json=lambda: {"diagnosis": []})
        reported = run_json(Answers(), diagnosis, None, "")
        self.assertEqual((reported["diagnosis"], reported["text"], reported["scale"]), ([], "sort.tasks", None))
        self.assertNotIn("diagnosis", run_json(Answers(), None, None, ""))

    def test_a_file(self):
        with tempfile.TemporaryDirectory() as folder:
            path = os.path.join(folder, "told.json")
            write_json(path, {"a": 1})
            with open(path, encoding="utf-8") as file:
                self.assertEqual(json.load(file), {"a": 1})
            with self.assertRaisesRegex(Fault, "^%s/no/x: No such file or directory$" % folder):
                write_json(os.path.join(folder, "no", "x"), {})


if __name__ == "__main__":
    unittest.main()
