import json
import os
import struct
import tempfile
import unittest
from unittest import mock

from spanprof import segment_table
from spanprof.command import Fault
from spanprof.segment_table import Code, Kind, code_in, read_code
from spanprof.tests.recordings import TEXT as OF_A_RECORDING, recording
from spanprof.tests.test_segment_table import TEXT

KINDS = [[True, "", "", "", ""], [False, "a.c:3", "", "", ""], [False, "a.c:3", "taskwait", "a.c:5", ""],
         [True, "", "creating a task", "a.c:3", ""], [False, "one of the region's threads", "", "", "a.c:8"],
         [True, "", "creating a task", "one of the region's threads", "a.c:8"],
         [True, "", "taskgroup", "barrier of the region at a.c:8", "a.c:8"]]
SUMS = [[0, 1, 1, 7, 7], [1, 2, 1, 5, 5], [2, 3, 1, 6, 6], [3, 4, 1, 0, 0], [4, 5, 1, 1, 1], [5, 6, 1, 0, 0],
        [6, 0, 1, 1 << 33, 1 << 33]]
LAST = {"segments": 7, "kinds": KINDS, "long": [6, 1 << 33], "sums": SUMS, "own": [4, 1],
        "clauses": [[1, " depend(inout: x)", 1, 0]]}
ROWS = [(0, 0, 7), (1, 1, 5), (2, 1, 6), (3, 0, 0), (4, 2, 1), (5, 0, 0), (6, 0, 0)]    # kind, task, cost


def table(rows, reported, of_a_block=segment_table.OF_A_BLOCK):
    """As the converter writes it."""
    out = b""
    for first in range(0, len(rows), of_a_block):
        kinds, tasks, costs = zip(*rows[first:first + of_a_block])
        out += struct.pack("=%dH%dI" % (len(kinds), 2 * len(kinds)), *kinds, *tasks, *costs)
    return out + b"\n" + json.dumps(reported).encode() + b"\n"


def read(data):
    with tempfile.TemporaryDirectory() as folder:
        path = os.path.join(folder, "segments")
        with open(path, "wb") as file:
            file.write(data)
        return segment_table.read_into(Code(), path, Kind)


class OfARecording(unittest.TestCase):
    def check(self, found):
        wanted = read_code(TEXT.replace("work 4\n", "work 8589934592\n").splitlines(True), "a.tasks")
        for name in ("of", "task", "cost", "kinds", "names", "sums", "own", "groups", "clauses"):
            self.assertEqual(getattr(found, name), getattr(wanted, name), name)

    def test_it_has_what_the_text_has(self):
        self.check(read(table(ROWS, LAST)))

    def test_older_ones_have_no_sums(self):
        self.check(read(table(ROWS, {name: value for name, value in LAST.items() if name != "sums"})))

    def test_what_else_is_added_up(self):
        more = {"phases": [[4, 1, 1, 0, 0, 1, 0]], "delays": [[4, 900, 50], [6, 0, 0]],
                "barriers": [[4, 1, 30, [[4, 70], [None, 0]], [[4, 20]]]],
                "regions": {"tasks": True, "places": [["a.c:8", 2, 70, 90, [[4, 50, 9], [2, 20, 0]]]]}}
        found = read(table(ROWS, {**LAST, **more}))
        self.check(found)
        self.assertEqual((found.phases, found.delays), (more["phases"], more["delays"]))
        self.assertEqual(found.barriers, [[4, 1, 30, [(4, 70), (None, 0)], [(4, 20)]]])
        self.assertEqual(found.regions, (True, more["regions"]["places"]))
        for name, value in (("phases", [[7, 1, 1, 0, 0, 1, 0]]), ("phases", [[4, 1]]), ("delays", [[4, 900, ""]]),
                            ("barriers", [[4, 1, 30, [[7, 70]], []]]), ("barriers", [[4, 1, 30, []]]),
                            ("regions", {"tasks": True, "places": [["a.c:8", 2, 70, 90, [[4, 50]]]]}), ("regions", {})):
            with self.assertRaisesRegex(Fault, "segments is damaged"):
                read(table(ROWS, {**LAST, **more, name: value}))

    def test_block_by_block(self):
        with mock.patch("spanprof.segment_table.OF_A_BLOCK", 3):
            self.check(read(table(ROWS, LAST, 3)))

    def test_damage(self):
        for data in (b"", b"\n", table(ROWS[1:], LAST), table(ROWS, {"segments": 7}), table(ROWS, LAST)[1:]):
            with self.assertRaisesRegex(Fault, "segments is damaged"):
                read(data)

    def test_numbers_that_it_does_not_have(self):
        for name, value in (("segments", 10 ** 18), ("kinds", KINDS[1:]), ("kinds", KINDS + KINDS), ("own", [7, 1]),
                            ("sums", SUMS[1:]), ("sums", [[*SUMS[0][:4], ""], *SUMS[1:]]), ("sums", []),
                            ("clauses", [[7, "if(0)", 1, 0]]), ("clauses", [[1, "if(0)", "", 0]])):
            with self.assertRaisesRegex(Fault, "segments is damaged"):
                read(table(ROWS, {**LAST, name: value}))
        with self.assertRaisesRegex(Fault, "segments that it does not have"):
            read(table([(0, 1 << 31, 7), *ROWS[1:]], LAST))

    def test_it_lies_beside_the_text_of_a_recording(self):
        reported = {"segments": 3, "kinds": KINDS[:2] + KINDS[3:4], "long": [], "own": [], "clauses": []}
        with tempfile.TemporaryDirectory() as folder:
            path = recording(folder)
            text = os.path.join(path, "program.tasks")
            cut = code_in(text)
            with open(os.path.join(path, "segments"), "wb") as file:
                file.write(table([(0, 0, 9), (1, 1, 8), (2, 0, 7)], reported))
            os.utime(text, (1, 1))
            self.assertEqual([one.cost for one in (*cut, *code_in(text))], [0, 5, 4, 9, 8, 7])
            self.assertIn("work 5", OF_A_RECORDING)


if __name__ == "__main__":
    unittest.main()
