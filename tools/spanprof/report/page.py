"""The page: the diagnosis, and below it parts that are folded until asked for; with style and script."""
import json
import os
from string import Template

from spanprof.command import Progress, each
from spanprof.report.markup import colour_rules, join, markup
from spanprof.report.part_curve import curve_part
from spanprof.report.part_diagnosis import changes_part, first_part
from spanprof.report.part_numbers import numbers_part
from spanprof.report.part_places import places_part, source_part
from spanprof.report.timeline import timeline_data, timeline_part

HERE = os.path.dirname(os.path.abspath(__file__))
SCRIPTS = ("data.js", "stretch.js", "drawing.js", "words.js", "chosen.js", "lanes.js", "levels.js", "controls.js",
           "page.js")


def kept(name):
    with open(os.path.join(HERE, "template", name), encoding="utf-8") as file:
        return file.read()


def parts(view, progress):
    """Some texts have not all of them."""
    makers = (first_part, timeline_part, places_part, changes_part, curve_part, source_part, numbers_part)
    return list(filter(None, [make(view) for make in each(makers, progress)]))


def page(view, progress=None):
    """The whole page as text."""
    made = parts(view, progress or Progress("making the page"))
    data = json.dumps(timeline_data(view), ensure_ascii=False, separators=(",", ":"))
    return Template(kept("page.html")).substitute(
        title=markup(view.name), main=join(made, "\n"),
        data=data.replace("<", "\\u003c"),     # so that nothing ends the element
        style=colour_rules() + kept("style.css"), script="\n".join(map(kept, SCRIPTS)))
