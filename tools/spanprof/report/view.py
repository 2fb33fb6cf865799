"""What one program brings to the page: its answers, its places, its recorded run, and the point that it reached."""
import os
from array import array
from functools import cached_property
from typing import List, NamedTuple

from spanprof.answers import Answers, places, task_places
from spanprof.diagnosis.output import diagnosis_of
from spanprof.recording import folder_of, open_recording
from spanprof.report.figures import DECLARED, MEASURED, RECORDED, Figures, Units
from spanprof.report.markup import MOST_COLOURS
from spanprof.report.part_curve import true_times_beside
from spanprof.report.timeline import levels_in, levels_of_greedy
from spanprof.source_lines import OF_A_STATEMENT, Sources, line_of, stretches
from spanprof.time_breakdown import recorded_breakdown, times_name


class RecordedRun(NamedTuple):
    """The run as it was. Times are in the unit of the text, which is so many nanoseconds."""
    starts: List[float]
    ends: List[float]
    workers: List[int]
    unit: int = 1
    count: int = 1      # of workers; some of them may have run nothing

    @property
    def end(self):
        return max(self.ends, default=0)


class View:
    """Of a long text the run is shown in bins of time, and what would need a row or a picture of each segment is left
    out."""

    def __init__(self, path, threads=None, source=None, tell=None):
        self.answers = Answers(path, threads, tell)
        self.units = Units(self.answers.head)
        self.name, self.unit, self.is_long = self.answers.name, self.units.name, self.answers.is_long
        self.figures = Figures(self.units)
        here = [os.path.dirname(os.path.abspath(folder_of(path) or path)), os.getcwd()]
        self.chosen = source or ()      # folders of the source
        self.sources = Sources(source or here, self.answers.head.sources, bool(source))
        self.task_places, self.places = task_places(self.answers), places(self.answers)
        self.run = None
        if not self.is_long and self.account and self.account.rows:
            rows, unit = self.account.rows, self.answers.head.nanoseconds
            self.run = RecordedRun([begin / unit for begin in rows.begin], [end / unit for end in rows.end],
                                   list(rows.thread), unit, self.account.threads)

    @property
    def cost_kind(self):
        return MEASURED if self.answers.head.is_measured else DECLARED

    @property
    def shape_kind(self):
        """Of tasks, segments and what waits for what."""
        head = self.answers.head
        return RECORDED if head.program or head.threads or head.unit else DECLARED

    def colour_of(self, task_place):
        """The number of a colour: one for each of the first places of tasks, and one for all others."""
        return min(task_place.number, MOST_COLOURS - 1)

    def task_place_at(self, place):
        """That of the tasks of which the segments at a place are."""
        return self.task_places[self.task_place_of[place.kinds[0]]]

    @cached_property
    def true_times(self):
        """The points of the true speedup, where it was measured with this recording."""
        return true_times_beside(self.answers)

    @cached_property
    def levels(self):
        """Of a long text the timelines of its runs: the recorded one where the recorder's table of times lies beside
        it."""
        return dict(filter(lambda pair: pair[1], (("recorded", self.recorded_levels()),
                                                  ("greedy", levels_of_greedy(self)))))

    def recorded_levels(self):
        times = open_recording(self.answers.path).times
        if not times:
            return None
        self.answers.tell("reading " + os.path.basename(times))
        return levels_in(times, self)

    @cached_property
    def diagnosis(self):
        """Of a recorded run on several threads; None where there is none, as of a text without times."""
        self.answers.tell("changes of %s" % self.name)
        return diagnosis_of(self.answers, self.chosen)

    @cached_property
    def account(self):
        """Of the recorded run; None without a timed document beside the text, for the reason that is kept."""
        found, self.without_breakdown = recorded_breakdown(self.answers)
        if found:
            name = times_name(self.answers.path)
            self.answers.asked += ["spanprof_large account%s < %s" % (words, name)
                                   for words in ("", " --rows")[:1 if self.is_long else 2]]
        return found

    @cached_property
    def stretches(self):
        """Of each place, by its name, the lines that its segments run, where its name tells one."""
        return stretches(self.answers, self.places, self.sources)

    def line_at(self, place):
        """The line of the source at which a place's segments begin, of a task its directive; empty without a file."""
        stretch, named = self.stretches.get(place), line_of(place)
        number = named.number if named and place.startswith(OF_A_STATEMENT) else stretch.first if stretch else 0
        lines = self.sources.lines_of(stretch.file) if stretch else []
        return lines[number - 1].strip() if 0 < number <= len(lines) else ""

    @cached_property
    def place_of(self):
        """Of each segment the number of its place."""
        number, code = {place.name: place.number for place in self.places}, self.answers.code
        of_kind = [number[name] for name in code.names]
        return array("I", map(of_kind.__getitem__, code.of))

    @cached_property
    def task_place_of(self):
        """Of each kind of segments the number of the place that creates their tasks."""
        return {kind: number for number, place in enumerate(self.task_places) for kind in place.kinds}
