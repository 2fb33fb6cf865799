"""The speedup on more and more threads, between `least` and `bound`, with the point that the run reached, and the true
one, of unrecorded runs on several numbers of threads.
"""
from typing import List, NamedTuple

from spanprof.command import DAMAGE
from spanprof.head import gain_may_be_less, gain_may_be_more, least_end, why_not_of_more_threads
from spanprof.recording import scale_of
from spanprof.report.figures import MEASURED, PROVED, badges
from spanprof.report.markup import join, note, section, tag

TRUE = "true speedup against one thread: median of measured, unrecorded runs of the whole program, least and greatest"
NAMES = ("threads", "speedup", "speedup from", "speedup to")
WIDTH, HEIGHT = 720, 380
COLUMNS = (("end", "the greedy schedule ends at"), ("least", "no run before"), ("bound", "no greedy schedule after"))
LEFT, RIGHT, TOP, BOTTOM = 60, 16, 16, 56
REACHED = "work / elapsed of the recorded run"


class Point(NamedTuple):
    """A median, and where the runs on so many threads lie."""
    threads: int
    speed_up: float
    least: float
    greatest: float


def true_times_beside(answers) -> List[Point]:
    """What `spanprof-record --scale` or `--full` wrote in the recording; nothing where they did not."""
    try:
        return [Point(*(row[name] + 0 for name in NAMES)) for row in scale_of(answers.path)["threads"]]
    except DAMAGE:
        return []


def shown_points(view):
    """Those within the curve's numbers of threads."""
    return [point for point in view.true_times if point.threads <= max(view.answers.curve)]


def mark(axes, view, point):
    """A square at the median, on a line from the slowest to the fastest run."""
    x, y = axes.x(point.threads), axes.y(point.speed_up)
    low, high = axes.y(point.least), axes.y(point.greatest)
    words = "%d threads: %.2f (%.2f to %.2f), %s" % (*point, TRUE)
    sources = ["scale %d %s" % (point.threads, name.replace(" ", "-")) for name in NAMES]
    return tag("g", view.figures.with_sources("title", words, sources),
               tag("path", d="M%g %gV%gM%g %gh8M%g %gh8" % (x, low, high, x - 4, low, x - 4, high)),
               tag("rect", x=x - 4, y=y - 4, width=8, height=8), class_="true")


def true_marks(axes, view):
    return join([mark(axes, view, point) for point in shown_points(view)])


class Axes:
    """Threads from left to right, speedups from the bottom up."""

    def __init__(self, most_threads, most_times):
        self.most_threads, self.most_times = most_threads, most_times

    def x(self, threads):
        part = (threads - 1) / max(self.most_threads - 1, 1)
        return round(LEFT + part * (WIDTH - LEFT - RIGHT), 1)

    def y(self, speed_up):
        return round(HEIGHT - BOTTOM - speed_up / self.most_times * (HEIGHT - TOP - BOTTOM), 1)

    def points(self, pairs):
        return " ".join("%g,%g" % (self.x(threads), self.y(speed_up)) for threads, speed_up in pairs)


def speed_ups(answers, column):
    """Nothing where no greedy schedule was made."""
    return [(threads, answers.work / row[column] if row[column] else 1) for threads, row in answers.schedules.items()
            if column in row]


def step_of(most):
    """A distance of ticks that leaves ten of them or fewer."""
    return next(step for step in (1, 2, 4, 5, 8, 10, 16, 20, 32, 50, 64, 100, 128, 256) if most / step <= 10)


def grid(axes):
    pieces = []
    step = step_of(axes.most_threads)
    for threads in sorted({1, *range(step, axes.most_threads + 1, step)}):
        x = axes.x(threads)
        pieces.append(tag("line", x1=x, x2=x, y1=axes.y(0), y2=TOP, class_="grid"))
        pieces.append(tag("text", threads, class_="axis", x=x, y=axes.y(0) + 22, text_anchor="middle"))
    step = step_of(axes.most_times)
    for speed_up in range(0, int(axes.most_times) + 1, step):
        y = axes.y(speed_up)
        pieces.append(tag("line", x1=LEFT, x2=WIDTH - RIGHT, y1=y, y2=y, class_="grid"))
        pieces.append(tag("text", speed_up, class_="axis", x=LEFT - 7, y=y + 4, text_anchor="end"))
    middle = (TOP + axes.y(0)) / 2
    pieces.append(tag("text", "threads", x=(LEFT + WIDTH - RIGHT) / 2, y=HEIGHT - 6, text_anchor="middle"))
    pieces.append(tag("text", "work / end", x=16, y=middle, text_anchor="middle",
                      transform="rotate(-90 16 %g)" % middle))
    return join(pieces)


def point_title(view, threads):
    """What the curve says at a point, in one line."""
    row, work, named = view.answers.schedules[threads], view.answers.work, "curve %d " % threads
    times = work / row["end"] if row["end"] else 1
    words = "%d threads, %.2f times" % (threads, times)
    sources = [named + "threads", "span work / %send" % named]
    for column, name in COLUMNS:
        words += "; %s %s" % (name, view.units.plain(row[column]))
        sources.append(named + column)
    return view.figures.with_sources("title", words, sources)


def curve_lines(axes, view):
    # No run of the recorded code passes the first: by the text, and by the lock that was held the longest.
    ends = [(threads, least_end(view.answers, threads)) for threads in view.answers.curve]
    fastest = [(threads, view.answers.work / end if end else 1) for threads, end in ends]
    slowest = speed_ups(view.answers, "bound")
    greedy = speed_ups(view.answers, "end")
    low = [(threads, min(slow, fast)) for (threads, slow), (_, fast) in zip(slowest, fastest)]
    pieces = [tag("polygon", points=axes.points(fastest + low[::-1]), class_="band"),
              tag("polyline", points=axes.points(greedy), class_="curve")]
    for threads, speed_up in greedy:
        pieces.append(tag("circle", point_title(view, threads), cx=axes.x(threads), cy=axes.y(speed_up), r=3,
                          class_="dot"))
    return join(pieces)


def reached(view):
    """How fast the recorded run was, by the clock; None where that is not known."""
    head = view.answers.head
    return view.answers.work / head.elapsed if head.elapsed and head.threads else None


def reached_mark(axes, view):
    """A diamond where the recorded run stands."""
    threads = view.answers.head.threads
    if not reached(view) or threads > axes.most_threads:
        return ""
    x, y = axes.x(threads), axes.y(reached(view))
    words = "%d threads: %.2f, %s" % (threads, reached(view), REACHED)
    title = view.figures.with_sources("title", words, ["threads", "span work / elapsed"])
    return tag("path", title, d="M%g %gl7 7l-7 7l-7 -7z" % (x, y - 7), class_="reached")


def picture(view):
    most_threads = max(view.answers.curve)
    bounds = [speed_up for _, speed_up in speed_ups(view.answers, "least")]
    most = max([*bounds, *(point.greatest for point in shown_points(view)), reached(view) or 0])
    axes = Axes(most_threads, max(most * 1.06, 1.5))
    ideal = [(1, 1), (min(most_threads, axes.most_times), min(most_threads, axes.most_times))]
    pieces = [grid(axes), tag("polyline", points=axes.points(ideal), class_="ideal"), curve_lines(axes, view),
              reached_mark(axes, view), true_marks(axes, view)]
    return tag("svg", *pieces, viewBox="0 0 %d %d" % (WIDTH, HEIGHT), class_="chart", role="img",
               aria_label="Speedup on 1 to %d threads" % most_threads)


def legend(view):
    """What line, band, diamond and squares mean."""
    named = [("line", "the greedy schedule", speed_ups(view.answers, "end")),
             ("area", "from what every greedy schedule of the text reaches to what none passes", True),
             ("diamond", REACHED, reached(view)), ("hollow", TRUE, shown_points(view)),
             ("dotted", "as many as threads", True)]
    return tag("p", *[tag("span", tag("i", class_="key " + key), words) for key, words, is_there in named if is_there],
               class_="legend given")


def limits(view):
    """What keeps the curve from being the program's."""
    head = view.answers.head
    reasons = list(filter(None, [
        why_not_of_more_threads(head), "by the warnings the program may gain more" * gain_may_be_more(head),
        "by locks or warnings a run of the program may be below the band" * gain_may_be_less(head)]))
    return note("Of the program this says less: ", "; ".join(reasons), ".") if reasons else ""


def curve_part(view):
    return section("speedup", "Speedup over threads", tag("figure", picture(view), legend(view)),
                   note("The speedup of the text over serial code: the curve, and its bounds ",
                        badges(PROVED), ". A run of the text that leaves no thread idle while a segment is ready lies "
                        "in the band; tied tasks can force a thread to idle. The diamond is how many threads were busy "
                        "in this code on average ", badges(MEASURED), ". A dot's tooltip has its numbers."),
                   limits(view))
