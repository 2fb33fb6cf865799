import pathlib
import tempfile
import unittest
from unittest import mock

import measure_unseen
from measure_unseen import RECORDED, THREADS, TIMES, WATCHED, add, main, next_turn, rows, texts


class InAFolder(unittest.TestCase):
    def setUp(self):
        made = tempfile.TemporaryDirectory()
        self.addCleanup(made.cleanup)
        self.folder = pathlib.Path(made.name)


class Turns(InAFolder):
    def test_they_go_on_behind_those_of_the_folder(self):
        self.assertEqual(next_turn(self.folder), 1)
        add(self.folder, TIMES, [("words", "before", 4, 1, 1650, 0), ("words", "before", 4, 2, 1700, 1)])
        add(self.folder, WATCHED, [(1, 0.0, 0.01, 0.5)])
        self.assertEqual(next_turn(self.folder), 3)
        add(self.folder, TIMES, [("words", "before", 4, 3, 1600, 0)])
        self.assertEqual([row["nanoseconds"] for row in rows(self.folder / TIMES)], ["1650", "1700", "1600"])

    def test_one_that_is_cut_short_leaves_no_row(self):
        with mock.patch.object(measure_unseen, "turn_of", side_effect=KeyboardInterrupt), \
                mock.patch.object(measure_unseen, "going_first"), self.assertRaises(KeyboardInterrupt):
            measure_unseen.measure(self.folder, 1)
        self.assertEqual(list(self.folder.iterdir()), [])

    def test_runs_on_each_number_that_is_recorded(self):
        self.assertTrue(set(RECORDED) <= set(THREADS))


class Steps(InAFolder):
    def test_texts_of_new_recordings(self):
        for name in ("a.4.1.spanprof", "a.4.2.spanprof"):
            (self.folder / name).mkdir()
        (self.folder / "a.4.1.tasks").write_text("")
        with mock.patch.object(measure_unseen, "convert") as convert:
            texts(self.folder)
        self.assertEqual([call.args[0].name for call in convert.call_args_list], ["a.4.2"])

    def test_words(self):
        calls = []

        def step(name):
            return lambda folder, *turns: calls.append((name, *turns))
        with mock.patch.dict(measure_unseen.STEPS, {name: step(name) for name in measure_unseen.STEPS}):
            self.assertEqual(main(["turns", str(self.folder), "3"]), 0)
            self.assertEqual(main(["all", str(self.folder), "2"]), 0)
        self.assertEqual(calls, [("turns", 3), ("build",), ("turns", 2), ("texts",), ("judge",)])


if __name__ == "__main__":
    unittest.main()
