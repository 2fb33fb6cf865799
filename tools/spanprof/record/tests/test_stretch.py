"""Parts of a recorded run as recordings of their own."""
import os

from spanprof.command import Fault
from spanprof.record.convert_command import by_segment, cut, moment, region_lines, write_stretch
from spanprof.recording import open_recording
from spanprof.tests.in_folder import InFolder
from spanprof.tests.recordings import recording, write

LINES = ["work 5\n", "taskgroup {  # a.c:3\n", "  task {\n", "    work 2\n", "  }\n", "}\n", "work 3\n", "task {\n",
         "  work 1\n", "}\n", "taskwait\n", "work 4\n"]
# of the root 0 to 5, behind its group 7 to 10, behind the task to 10, and behind the wait 11 to 15
TIMES = [(0, 0, 5), (1, 5, 7), (0, 5, 5), (0, 7, 10), (1, 10, 11), (0, 10, 10), (0, 11, 15)]
REGIONS = "number,text,begin_ns,end_ns,threads,asked,tasks,loops,code_ns,inside,place\n0,0,0,15,1,0,0,0,9,0,\n" \
    "1,0,5,7,2,0,1,0,2,0,a.c:3\n2,0,10,11,2,0,1,0,1,0,sort+0x9\n"


class StretchTest(InFolder):
    def test_from_a_region_on(self):
        self.assertEqual(cut(LINES, TIMES, 5, 100), (LINES[1:], [0, 1, 2, 3, 4, 5, 6]))
        self.assertEqual(cut(LINES, TIMES, 6, 100), (LINES[7:], [3, 4, 5, 6]))

    def test_until_a_region(self):
        self.assertEqual(cut(LINES, TIMES, 0, 10), (LINES[1:7], [0, 1, 2, 3]))

    def test_without_a_region(self):
        self.assertRaises(Fault, cut, LINES, TIMES, 11, 100)

    def test_regions_of_a_part(self):
        path = write(os.path.join(self.folder, "regions"), REGIONS)
        self.assertEqual(region_lines(path, 10, 5)[1:], ["0,0,0,5,1,0,0,0,4,0,", "2,0,0,1,2,0,1,0,1,0,sort+0x9"])

    def test_what_is_reported_of_segments(self):
        path = write(os.path.join(self.folder, "off"), "3 10 20\n4 30 40\n")
        self.assertEqual(by_segment(path, {4: 1}), ["1 30 40"])
        self.assertEqual(by_segment("", {4: 1}), [])

    def test_moments(self):
        text = os.path.join(recording(self.folder, regions=REGIONS), "program.tasks")
        self.assertEqual([moment(asked, text) for asked in ("1.5", "2s", "a.c:3", "sort", "sort+0x9")],
                         [1500000000, 2000000000, 5, 10, 10])
        self.assertRaisesRegex(Fault, "regions are at a.c:3, sort", moment, "none", text)
        self.assertRaises(Fault, moment, "a.c:3", text, 6)

    def test_a_recording_of_it(self):
        made = os.path.join(self.folder, "part")
        write_stretch(open_recording(recording(self.folder)), made, 0, 100000)
        with open(os.path.join(made, "program.tasks"), encoding="utf-8") as text:
            self.assertIn("# elapsed: 5\nomptasks 1\ntask {  # mine.c:9\n", text.read())
        with open(os.path.join(made, "times"), encoding="utf-8") as times:
            self.assertEqual(times.read(), "times 2 0 5000\n0 0 0 0\n1 1 0 5000\n2 0 0 4000\n")
