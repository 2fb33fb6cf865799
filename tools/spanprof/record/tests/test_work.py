"""Under which names recordings are made."""
import os
import unittest

from spanprof.command import Fault
from spanprof.record.folder import Work
from spanprof.record.tests.log_heads import log_head
from spanprof.tests.in_folder import InFolder
from spanprof.tests.recordings import recording


class Names(InFolder):
    def setUp(self):
        super().setUp()
        self.out = os.path.join(self.folder, "mine")

    def names(self):
        return sorted(os.listdir(self.folder))

    def made(self, force=False, *ends):
        """A recording whose processes wrote logs with these ends of names, in this order."""
        work = Work(self.out, force)
        for began, end in enumerate(ends or [""]):
            log_head(work.stem + end + ".spanprof", began=began)
        return work

    def test_nothing_but_the_recording_is_left(self):
        work = self.made()
        self.assertEqual(self.names(), ["mine.spanprof.part"])
        self.assertEqual(list(work.publish().values()), [self.out + ".spanprof"])
        self.assertEqual(self.names(), ["mine.spanprof"])

    def test_one_that_is_there_stays(self):
        recording(self.folder)
        work = self.made()
        self.assertEqual((work.name, work.is_renamed), (self.out + "-2", True))
        work.publish()
        self.made().publish()
        self.assertEqual(self.names(), ["mine-2.spanprof", "mine-3.spanprof", "mine.spanprof"])

    def test_one_that_is_to_be_replaced_goes_when_the_new_one_is_whole(self):
        recording(self.folder, "mine.child1")
        work = self.made(True)
        self.assertEqual(self.names(), ["mine.child1.spanprof", "mine.spanprof.part"])
        work.publish()
        self.assertEqual(self.names(), ["mine.spanprof"])

    def test_nothing_replaces_nothing(self):
        recording(self.folder)
        Work(self.out, True).publish()
        self.assertEqual(self.names(), ["mine.spanprof"])

    def test_two_at_once(self):
        first, second = self.made(), self.made()
        forced = self.made(True)
        self.assertEqual([os.path.basename(one.name) for one in (first, second, forced)], ["mine", "mine-2", "mine-3"])
        for one in (second, first, forced):
            one.publish()
        self.assertEqual(self.names(), ["mine-2.spanprof", "mine-3.spanprof", "mine.spanprof"])

    def test_what_a_killed_one_left(self):
        os.mkdir(self.out + ".spanprof.part")
        self.assertEqual(os.path.basename(self.made().name), "mine-2")
        self.assertEqual(os.path.basename(self.made(True).name), "mine")

    def test_ranks_and_children(self):
        work = self.made(False, ".rank1", ".rank0", ".child77", ".child9", ".rank1.child8", "-2")
        self.assertEqual(sorted(os.path.basename(name) for name in work.publish().values()), [
            "mine.child1.spanprof", "mine.child2.spanprof", "mine.child3.spanprof", "mine.rank0.spanprof",
            "mine.rank1.child1.spanprof", "mine.rank1.spanprof"])

    def test_no_room(self):
        with self.assertRaisesRegex(Fault, "mine.spanprof.part: No such file or directory"):
            Work(os.path.join(self.folder, "none", "mine"), False)

    def test_a_log_is_kept_where_something_went_wrong(self):
        work = self.made()
        self.assertEqual(list(work.close().values()), [self.out + ".spanprof"])
        self.assertEqual(work.close(), {})


if __name__ == "__main__":
    unittest.main()
