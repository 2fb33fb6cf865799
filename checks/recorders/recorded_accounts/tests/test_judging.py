import unittest

from judging import faults


def reported(whole=1000000, by=None, **parts):
    """Of one thread; what is not said is code."""
    parts = {"delayed": 0, "starved": 0, "asleep": 0, "preempted": 0, **parts}
    parts["code"] = whole - sum(parts.values())
    return {"account": {"threads": 1, "elapsed": whole, "parts": parts,
                        "delayed beside": {"task at causes.c:22": parts["delayed"]},
                        "starved while": by or {"task at causes.c:29": parts["starved"]}}}


class Judged(unittest.TestCase):
    def test_right(self):
        self.assertEqual(faults("small", reported(delayed=400000), True), [])
        self.assertEqual(faults("serial", reported(starved=700000, asleep=200000), True), [])

    def test_a_busy_machine(self):
        self.assertEqual(faults("serial", reported(starved=300000, delayed=300000, preempted=200000), False), [])
        self.assertEqual(faults("serial", reported(starved=700000, asleep=50000, preempted=45000), False),
                         ["asleep and preempted have 95000 us, and tasks sleep for 96000"])
        self.assertEqual(faults("machine", reported(preempted=500000, starved=100000), False),
                         ["delayed, starved, preempted are 0.60 of the threads' time, and not 0.70"])

    def test_another_cause(self):
        self.assertEqual(faults("small", reported(delayed=100000, preempted=300000), True),
                         ["delayed, starved is 0.10 of the threads' time, and not 0.40"])

    def test_another_place(self):
        self.assertEqual(faults("serial", reported(starved=700000, asleep=200000, by={"the beginning": 700000}), True),
                         ["starved while the beginning, and not task at causes.c:2[7-9]"])

    def test_parts_that_do_not_add_up(self):
        wrong = reported(delayed=400000)
        wrong["account"]["parts"]["delayed"] += 1
        self.assertEqual(faults("small", wrong, True), ["the parts have 1000001 of 1000000",
                                                        "delayed: its places have 400000 of 400001"])

    def test_no_account(self):
        self.assertEqual(faults("small", {"account": None, "no account": "no program"}, True),
                         ["no account: no program"])


if __name__ == "__main__":
    unittest.main()
