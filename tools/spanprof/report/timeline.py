"""The timelines: the run as it was, above the greedy schedule on the same threads. The page's script draws them: of
each segment its numbers, of each run starts and threads; of a long text of each thread so many bins, with how busy
it is there and with what most.
"""
from operator import sub

from spanprof.recording import UNKNOWN, program_of, times_in
from spanprof.report.figures import MEASURED, PROVED, RECORDED, badge, badges
from spanprof.report.markup import MOST_COLOURS, details, join, note, section, tag

DIGITS = "0123456789abcdefghijklmnopqrstuvwxyz"
MOST_BINS = 32768           # of a thread
MOST_OF_ALL = 1048576       # of all threads: two letters each
FULL = len(DIGITS) - 1      # the digit of a thread that is busy all the time
KEYS = (("w s", "or + −: zoom"), ("a d", "or ← →: move"), ("0", "show all"),
        ("n", "the next segment on the critical path"), ("Esc", "deselect"))
HANDS = "Click or tap a segment: arrows come from those that it waited for (solid) and go to those that waited for " \
    "it (dashed). A drag moves, and Ctrl with the wheel or two fingers zoom."
IN_BINS = "Each bin is as high as the share of its time that the thread was in code, in the colour of the tasks that " \
    "it was in most."
MOST_REGIONS = 40
THIN = "segments thinner than a pixel, as high as the thread's busy share"
TIMED = "Bars are segments at their recorded times. In a gap the thread waited, slept, or was in the runtime."
UNTIMED = "There are no recorded times of its segments%s, so only the greedy schedule is shown."
NAMES = {"recorded": "The run as it was", "greedy": "The greedy schedule"}
AS_MANY = "The greedy schedule of the text on as many threads"


def packed(numbers):
    """Whole numbers to the base 36, with blanks between them; None is a hyphen."""
    return " ".join("-" if n is None else base36(n) for n in numbers)


def base36(n):
    digits = ""
    while n or not digits:
        n, digit = divmod(n, 36)
        digits = DIGITS[digit] + digits
    return digits


def or_none(threads):
    """Where a number below 0 is none."""
    return [thread if thread >= 0 else None for thread in threads]


def run_data(starts, threads, count):
    return {"starts": packed(starts), "lanes": packed(threads), "count": count}


def recorded_data(run):
    """In nanoseconds: `per` of them are one unit of the costs."""
    starts, ends = ([round(time * run.unit) for time in times] for times in (run.starts, run.ends))
    lengths = [end - start for start, end in zip(starts, ends)]
    return dict(run_data(starts, run.workers, run.count), lengths=packed(lengths), per=run.unit)


def levels_data(view):
    """The runs of a long text, in bins of time."""
    scale = {"recorded": view.answers.head.nanoseconds or 1, "greedy": 1}
    names = [place.name for place in view.task_places[:MOST_COLOURS - 1]] + ["all others"]
    return {"name": view.name, "unit": view.unit, "nanoseconds": view.units.nanoseconds, "names": names,
            "levels": {run: found.data(scale[run]) for run, found in view.levels.items()}}


def timeline_data(view):
    return levels_data(view) if view.is_long else segments_data(view)


def segments_data(view):
    """What the script needs: of each segment cost, task, place, slack; of each run starts and threads."""
    answers, rows, made = view.answers, view.answers.rows, view.answers.greedy
    firsts = map(answers.code.of.__getitem__, answers.code.firsts())
    # Of each segment how many it waits for, and how far before it each of these is.
    waits = {"counts": packed(map(len, answers.predecessors)),
             "steps": packed(s - p for s, before in enumerate(answers.predecessors) for p in before)}
    return {"name": view.name, "unit": view.unit, "nanoseconds": view.units.nanoseconds, "waits": waits,
            "places": [place.name for place in view.places],
            "cost": packed(rows.cost), "task": packed(rows.task), "place": packed(view.place_of),
            "slack": packed(rows.slack), "critical": packed(answers.path_segments),
            "taskPlace": packed(map(view.task_place_of.__getitem__, firsts)), "colours": MOST_COLOURS,
            "runs": {"greedy": run_data(made.starts, or_none(made.threads), answers.threads),
                     **({"recorded": recorded_data(view.run)} if view.run else {})}}


def bins_for(threads):
    return max(256, min(MOST_BINS, MOST_OF_ALL // max(threads, 1)))


class Levels:
    """`end` is that of the run, in any unit, of which a bin lasts a whole number."""

    def __init__(self, threads, end, bins=None):
        self.threads, self.end = threads, max(end, 1)
        self.width = -(-self.end // (bins or bins_for(threads)))
        self.bins = -(-self.end // self.width)
        # The last row is of what is on no thread.
        self.busy = [0] * ((threads + 1) * self.bins * MOST_COLOURS + MOST_COLOURS)

    def add_all(self, threads, starts, ends, colours):
        """Segments; most of them lie in one bin. What takes no time may be on the thread -1."""
        busy, width, row = self.busy, self.width, self.bins * MOST_COLOURS
        for thread, start, end, colour in zip(threads, starts, ends, colours):
            first = start // width
            if end - first * width <= width:
                busy[thread * row + first * MOST_COLOURS + colour] += end - start
            else:
                self.add(thread, start, end, colour)

    def add(self, thread, start, end, colour):
        """A segment that may lie in several bins."""
        base, width = thread * self.bins * MOST_COLOURS + colour, self.width
        for i in range(start // width, min(-(-end // width), self.bins)):
            self.busy[base + i * MOST_COLOURS] += min(end, (i + 1) * width) - max(start, i * width)

    def words_of(self, thread):
        """Two digits for each bin: how busy, to a 35th, and with the tasks of which colour."""
        first, last = (row * self.bins * MOST_COLOURS for row in (thread, thread + 1))
        busy = {colour: column for colour in range(MOST_COLOURS)
                if any(column := self.busy[first + colour:last:MOST_COLOURS]) or not colour}
        marks, width = [DIGITS[colour] for colour in busy], self.width
        return "".join(DIGITS[-(-FULL * min(sum(parts), width) // width)] + marks[parts.index(max(parts))]
                       for parts in zip(*busy.values()))

    def data(self, scale=1):
        """For the script: its times are so many times those of the page's unit."""
        return {"end": self.end / scale, "bins": self.bins, "wide": self.width / scale, "count": self.threads,
                "rows": [self.words_of(thread) for thread in range(self.threads)]}


def levels_of(view, threads, kinds, lanes, starts, ends):
    """The timeline of columns of numbers; `kinds` are those of the segments."""
    out, places = Levels(max(threads, max(lanes) + 1), max(ends)), view.task_place_of
    colours = bytes(view.colour_of(view.task_places[places[kind]]) for kind in range(len(places)))
    out.add_all(lanes, starts, ends, map(colours.__getitem__, kinds))
    return out


def levels_in(path, view):
    """In nanoseconds; None where the file has no times of the text."""
    try:
        segments, lanes, starts, ends = times_in(path)[1]
        if min(min(segments), min(lanes), min(starts), min(map(sub, ends, starts))) < 0:
            raise ValueError("below zero")
        kinds = map(view.answers.code.of.__getitem__, segments)
        return levels_of(view, view.answers.head.threads or 1, kinds, lanes, starts, ends)
    except (IndexError, ValueError):
        return None


def levels_of_greedy(view):
    """In the unit of the costs; None where there was too little memory for a greedy schedule."""
    made = view.answers.greedy
    if not made or max(made.threads) < 0:
        return None
    return levels_of(view, view.answers.threads, view.answers.code.of, made.threads, made.starts, made.ends)


def title(name, threads, end, busy, kinds):
    on_threads = tag("span", "%d threads" % threads, class_="given")
    return join([tag("b", NAMES[name]), ", ", on_threads, ", ", end, ", ", busy, " busy ",
                 badges(*dict.fromkeys(kinds))])


def recorded_title(view):
    run, show, kind = view.run, view.figures, view.cost_kind
    busy = sum(end - start for start, end in zip(run.starts, run.ends))
    return title("recorded", run.count, show.time(round(run.end), "run end", kind),
                 show.share(busy, run.count * run.end, "run busy / run time", kind), [RECORDED, kind])


def greedy_title(view):
    answers, show = view.answers, view.figures
    end = answers.schedules[answers.threads]["end"]
    return title("greedy", answers.threads, show.time(end, "curve %d end" % answers.threads, PROVED),
                 show.share(answers.work, answers.threads * end, "span work / greedy time", PROVED), [PROVED])


def choice(what, options):
    return tag("select", *[tag("option", words, value=value) for value, words in options], data_choose=what,
               aria_label=what, class_="given")


def longest_regions(view):
    """Of the places of regions with most time, as a choice: the stretch of the longest one, in the text's unit."""
    program, per = program_of(view.answers.path), view.answers.head.nanoseconds or 1
    places = sorted(program.places if program else (), key=lambda place: -place.total("elapsed"))[:MOST_REGIONS]
    for place in places:
        region, count = max(place.regions, key=lambda region: region.elapsed), len(place.regions)
        longest = ", the longest of {:,}".format(count) if count > 1 else ""
        name = place.name if place.name == UNKNOWN else "region at " + place.name
        yield "%.3f %.3f" % (region.begin / per, region.end / per), name + longest


def choices(view, threads):
    """What of the recorded run is shown."""
    regions = list(longest_regions(view))
    numbers = [(str(thread), "thread %d" % thread) for thread in range(threads)]
    return [choice("region", [("", "the whole run"), *regions])] * bool(regions) + \
        [choice("thread", [("", "all threads"), *numbers])] * (threads > 1)


def controls(chosen=()):
    buttons = (("in", "+", "zoom in"), ("out", "−", "zoom out"), ("all", "all", "show all"),
               ("left", "←", "to the left"), ("right", "→", "to the right"))
    return tag("div", *[tag("button", words, type="button", data_act=act, aria_label=label)
                        for act, words, label in buttons], *chosen, class_="controls")


def lane(title, run, has_segments=True, chosen=()):
    """One timeline; the script fills the drawing, and the line that tells of the stretch that is shown."""
    more = ", n goes along the critical path" if has_segments else ""
    drawing = tag("div", class_="lanes", tabindex="0", role="application", data_run=run,
                  aria_label="Timeline; arrow keys move, plus and minus zoom" + more)
    return tag("figure", tag("figcaption", title), controls(chosen), drawing,
               tag("p", class_="note stretch", role="status"), class_="timeline")


def colour_legend(view, has_segments=True):
    shown = [place for place in view.task_places if place.cost]
    items = [("c%d" % view.colour_of(place), place.name) for place in shown[:MOST_COLOURS - 1]]
    items += [("c%d" % (MOST_COLOURS - 1), "all others")] * (len(shown) >= MOST_COLOURS)
    items += [("strip", "below a segment: on the critical path"), ("merged", THIN)] * has_segments
    return tag("p", *[tag("span", tag("i", class_="key " + class_), words) for class_, words in items],
               class_="legend given")


def lanes_of(view):
    """The recorded run, and the greedy schedule folded; that alone where no times are known."""
    if not view.answers.work:
        return [note(tag("span", view.name, class_="given"), ": no segment takes time.")]
    greedy = lane(greedy_title(view), "greedy")
    if not view.run:
        return [greedy, colour_legend(view)]
    return [lane(recorded_title(view), "recorded", chosen=choices(view, view.run.count)), colour_legend(view),
            details(AS_MANY, greedy, class_="greedy")]


def lanes_in_bins(view):
    """Of a text with too many segments for a bar each; nothing where no run is known."""
    kinds = {"recorded": MEASURED, "greedy": PROVED}
    lanes = [lane(join([tag("b", NAMES[run]), " ", badge(kinds[run])]), run, has_segments=False,
                  chosen=choices(view, made.threads) if run == "recorded" else ())
             for run, made in view.levels.items()]
    others = [details(AS_MANY, made, class_="greedy") for made in lanes[1:]]
    return [*lanes[:1], *others, colour_legend(view, has_segments=False), note(IN_BINS)] if lanes else []


def how_to_read(view):
    why = ": " + view.without_breakdown if view.without_breakdown else ""
    words = TIMED if view.run else tag("span", UNTIMED % why, class_="given")
    keys = join([join([tag("kbd", name), " ", what]) for name, what in KEYS], ", ")
    return details("How to read it", note(words), note(HANDS), note("Keys, once a timeline has the focus: ", keys, "."))


def timeline_part(view):
    made = lanes_in_bins(view) if view.is_long else [
        *lanes_of(view), how_to_read(view), tag("noscript", note("The timelines are drawn by the page's script."))]
    return section("timeline", "Timeline of the run", *made) if made else ""
