"""One table of places: work, part of the critical path, slack, the idle time that they cause, and tasks; and the source
with heat: which lines the work and the span are of.
"""

from spanprof.program_text import CALLED_FROM
from spanprof.report.figures import MEASURED, PROVED, badges, percent
from spanprof.report.markup import bar, breakable, join, note, place_cell, section, table, tag

MOST_PLACES = 40
HEADS = ("place", "work", "of the work", "on the critical path", "least slack", "idle while it ran",
         "scheduling delay while it was ready", "tasks", "a task on average")
MOST_FILES, MOST_LINES, AROUND = 6, 800, 3
DARKEST = 0.45      # so that words on it can be read
LEAST = 0.05        # per cent, which are reported as 0.1


def share_cell(show, part, whole, source, kind):
    return join([show.share(part, whole, source, kind), bar(percent(part, whole))])


def idle_cells(view, place):
    """Of the threads' time, what is not run because of the place: it ran alone, or was ready and not taken."""
    found, cells = view.account, []
    for kind in ("starved", "delayed"):
        part = getattr(found, kind + "_by").get(place.name, 0) if found else 0
        source = "account %s-at %d / account whole" % (kind, place.number)
        cells.append(view.figures.share(part, found.whole, source, MEASURED) if part else "")
    return cells


def task_cells(view, place):
    """Of the place where tasks begin: how many, and what one costs on average with all its segments."""
    kind, made = view.answers.code.kinds[place.kinds[0]], view.task_place_at(place)
    if kind.after or kind.is_root:
        return ["", ""]
    named = "task-place %d " % made.number
    return [view.figures.number(made.tasks, named + "count", view.shape_kind),
            view.figures.time(made.cost / made.tasks, "%scost / %scount" % (named, named), view.cost_kind)]


def row(view, place):
    answers, show, kind, named = view.answers, view.figures, view.cost_kind, "place %d " % place.number
    return [place_cell(place.name, view.line_at(place.name), view.colour_of(view.task_place_at(place))),
            show.time(place.cost, named + "cost", kind),
            share_cell(show, place.cost, answers.work, named + "cost / span work", kind),
            share_cell(show, place.critical_cost, answers.span, named + "path / span span", kind),
            show.time(place.slack, named + "slack", PROVED), *idle_cells(view, place), *task_cells(view, place)]


def places_part(view):
    """The critical path's first. Columns without a number are left out."""
    shown = [place for place in view.places if place.cost][:MOST_PLACES] or view.places[:1]
    rows, left_out = [row(view, place) for place in shown], len(view.places) - len(shown)
    columns = [i for i in range(len(HEADS)) if any(cells[i] for cells in rows)]
    count = view.figures.number(sum(place.critical_segments for place in view.places), "path segments", PROVED)
    more = ["Left out: ", tag("span", left_out, class_="given"), " with little or no work."] * bool(left_out)
    return section("places", "Critical path and tasks by place", note(
        "A segment's place is where it begins. ", count, " segments are on the critical path: with enough threads, "
        "only a shorter one lets the program end sooner. Slack is the delay that a segment can bear. Idle time, a "
        "share of the threads' time, counts at what had run longest then, and delay at what had been ready longest. "
        "Costs ",
        badges(view.cost_kind), ", path and slack ",
        badges(PROVED), ". ", *more),
        table([HEADS[i] for i in columns], [[cells[i] for i in columns] for cells in rows],
              numeric=range(1, len(columns)), is_sortable=True))


def of_files(view):
    """By file the numbers of the places with costs that begin there, the file with the most work first."""
    out = {}
    for place in view.places:
        stretch = view.stretches.get(place.name)
        if stretch and place.cost:
            out.setdefault(stretch.file, []).append(place)
    return sorted(out.items(), key=lambda item: -sum(place.cost for place in item[1]))


def shown_lines(view, places, lines):
    """Those that segments run, and some around them."""
    near = set()
    for place in places:
        stretch = view.stretches[place.name]
        near.update(range(stretch.first - AROUND, stretch.last + AROUND + 1))
    return sorted(number for number in near if 0 < number <= len(lines))[:MOST_LINES]


def shares_of(view, place):
    """Its parts of the work and of the span, in per cent."""
    return percent(place.cost, view.answers.work), percent(place.critical_cost, view.answers.span)


def heat(view, places, number):
    """The greatest parts of the work and of the span that a place is whose segments run the line; none without any."""
    here = [shares_of(view, place) for place in places
            if view.stretches[place.name].first <= number <= view.stretches[place.name].last]
    work, span = (max(column) for column in zip(*here)) if here else (0, 0)
    return "--heat:%.1f%%;--span:%.1f%%" % (DARKEST * work, span) if here else None


def words_of(view, place):
    show, kind, named = view.figures, view.cost_kind, "place %d " % place.number
    what, called, callers = place.name.partition(CALLED_FROM)
    words = [what.partition(" at ")[0], view.stretches[place.name].words, (called + callers).strip()]
    return tag("span", tag("span", breakable(", ".join(filter(None, words))), class_="given"), ": ",
               show.share(place.cost, view.answers.work, named + "cost / span work", kind), " of the work, ",
               show.share(place.critical_cost, view.answers.span, named + "path / span span", kind), " of the span",
               class_="at-line")


def line_row(view, places, lines, number):
    here = [place for place in places
            if view.stretches[place.name].first == number and max(shares_of(view, place)) >= LEAST]
    cells = [tag("td", number, class_="n given"), tag("td", tag("code", lines[number - 1] or " ")),
             tag("td", *[words_of(view, place) for place in here])]
    return tag("tr", *cells, style=heat(view, places, number))


def file_table(view, places, lines):
    rows, before = [], 0
    for number in shown_lines(view, places, lines):
        rows += [tag("tr", tag("td", "⋮", colspan=3))] if before and number > before + 1 else []
        rows.append(line_row(view, places, lines, number))
        before = number
    return tag("div", tag("table", tag("tbody", *rows), class_="source"), class_="wide")


def source_part(view):
    """Nothing where no file is found."""
    files = [(name, places, view.sources.lines_of(name)) for name, places in of_files(view)]
    found = [(name, places, lines) for name, places, lines in files if lines][:MOST_FILES]
    pieces = [join([tag("h3", name, class_="place"), file_table(view, places, lines)]) for name, places, lines in found]
    return section("source", "Source", note(
        "A darker line has more of the work, a redder bar more of the span, of the segments from there to the "
        "construct that ends them. Shares ", badges(view.cost_kind), "."),
        *pieces) if found else ""
