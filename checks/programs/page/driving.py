"""The first screen, zoom, movement, tooltips, tables and changes of a page, by keys and mouse, as trials that yield
faults."""
import os
import shlex
import subprocess

from measured import what_was_measured_is_reported
from timelines import (fingers_are_reported, fingers_zoom, names_stand_in_bars, regions_and_threads_are_chosen,
                       runs_zoom_by_themselves, segments_are_chosen)

TOP = os.path.dirname(os.path.dirname(os.path.dirname(os.path.dirname(os.path.abspath(__file__)))))
WHATIF = os.path.join(TOP, "tools", "spanprof-whatif")
FIRST_SCREEN = 900  # pixels
UNFOLD = "document.querySelectorAll('section > details').forEach(part => { part.open = true; })"
CTRL = 2    # the bit of the key in an event of the mouse


def stretch(page):
    """From and to of the first timeline."""
    return page.evaluate("(s => [s.from, s.to, s.whole])(allLanes[0].stretch)")


def length(page):
    start, end, _ = stretch(page)
    return end - start


def tip(page):
    """The words of the tooltip that is shown."""
    return page.evaluate("(t => t ? t.textContent : '')(document.querySelector('.tip.shown'))")


def has_timeline(page):
    return page.evaluate("!!document.querySelector('.lanes')")


def keys_zoom_and_move(page):
    page.evaluate("document.querySelector('.lanes').focus()")
    whole = length(page)
    page.key("+", "+")
    zoomed = length(page)
    if not zoomed < whole:
        yield "+ does not zoom"
    start = stretch(page)[0]
    page.key("ArrowRight")
    if zoomed < whole and not stretch(page)[0] > start:
        yield "the arrow to the right does not move"
    page.key("0", "0")
    if length(page) != whole:
        yield "0 does not show all"


def letters_zoom_and_move(page):
    page.evaluate("document.querySelector('.lanes').focus()")
    seen = [stretch(page)]
    for name in "wwdas0":
        page.key(name, name)
        seen.append(stretch(page))
    lengths = [end - start for start, end, _ in seen]
    if not lengths[0] > lengths[1] > lengths[2]:
        yield "w does not zoom"
    if not seen[2][0] < seen[3][0] > seen[4][0]:
        yield "d and a do not move"
    if not lengths[5] > lengths[4] or lengths[6] != lengths[0]:
        yield "s does not zoom out, or 0 does not show all"


def a_key_goes_along_the_path(page):
    page.evaluate("document.querySelector('.lanes').focus()")
    for _ in range(2):
        page.key("n", "n")
        words = tip(page)
        if not all(part in words for part in ("segment", "cost", "slack", "on the critical path")):
            yield "n does not go to the critical path: %r" % words
    page.key("Escape")
    if tip(page):
        yield "Escape does not close the tooltip"


def widest_bar(page, is_close=False):
    """The middle of the widest bar of the first timeline, in the window; where it is wanted, from close by."""
    return page.evaluate("""(() => {
      const lanes = allLanes[0];
      lanes.element.scrollIntoView({block: 'center'});
      const box = lanes.element.getBoundingClientRect();
      const all = lanes.rows.flatMap((row, i) => row.map(bar => ({...bar, i})));
      const bar = all.reduce((a, b) => b.end - b.start > a.end - a.start ? b : a);
      if (%s) lanes.stretch.show(2 * bar.start - bar.end, 3 * (bar.end - bar.start));
      drawAll();
      const pixel = Math.floor(lanes.x((bar.start + bar.end) / 2));
      return {x: box.left + lanes.x((bar.start + bar.end) / 2), y: box.top + lanes.top(bar.i) + lanes.height / 2,
              words: lanes.words([bar]), isThin: (bar.end - bar.start) * lanes.scale < 1,
              isAlone: lanes.rows[bar.i].filter(other => lanes.x(other.end) > pixel
                && lanes.x(other.start) < pixel + 1).length === 1};
    })()""" % ("true" if is_close else "false"))


def mouse_tells(page):
    page.key("0", "0")
    bar = widest_bar(page)
    page.mouse("mouseMoved", bar["x"], bar["y"])
    many = "segments, too thin to be told apart here" in tip(page)
    if bar["isThin"] and not many and not (bar["isAlone"] and tip(page) == bar["words"]):
        yield "the tooltip of bars thinner than a pixel says %r" % tip(page)
    page.mouse("mouseMoved", 5, 5)      # a mouse that stays where it is tells nothing
    bar = widest_bar(page, is_close=True)
    page.mouse("mouseMoved", bar["x"], bar["y"])
    if tip(page) != bar["words"]:
        yield "the tooltip says %r, and not %r" % (tip(page), bar["words"])
    page.mouse("mouseMoved", 5, 5)
    if tip(page):
        yield "the tooltip stays"
    page.key("0", "0")


def mouse_zooms_and_moves(page):
    bar = widest_bar(page)
    whole = length(page)
    page.mouse("mouseWheel", bar["x"], bar["y"], deltaX=0, deltaY=-100, modifiers=CTRL)
    zoomed = length(page)
    if not zoomed < whole:
        yield "Ctrl with the wheel does not zoom"
    start = stretch(page)[0]
    page.mouse("mousePressed", bar["x"], bar["y"], button="left", buttons=1, clickCount=1)
    page.mouse("mouseMoved", bar["x"] - 60, bar["y"], button="left", buttons=1)
    page.mouse("mouseReleased", bar["x"] - 60, bar["y"], button="left", clickCount=1)
    if stretch(page)[1] < stretch(page)[2] and not stretch(page)[0] > start:
        yield "dragging does not move"
    for act, want in (("all", whole), ("in", None), ("out", whole)):
        page.evaluate("document.querySelector('[data-act=%s]').click()" % act)
        page.settled()
        if want and abs(length(page) - want) > 1e-6 * want:
            yield "the button %s does not show all" % act


def tables_sort(page):
    columns = page.evaluate("""[...document.querySelectorAll('table.sortable')].flatMap((table, t) =>
      [...table.tHead.rows[0].cells].map((head, c) => {
        head.querySelector('button').click();
        const cells = [...table.tBodies[0].rows].map(row => row.cells[c].querySelector('data')?.value);
        const numbers = cells.filter(value => value !== undefined).map(Number);
        return [t, c, head.getAttribute('aria-sort'), numbers.every((v, i) => !i || numbers[i - 1] >= v)];
      }))""")
    for table, column, said, is_sorted in columns:
        if said != "descending" or not is_sorted:
            yield "column %d of table %d is not sorted: %s" % (column, table, said)


def the_diagnosis_is_one_screen(page):
    bottom = page.evaluate("document.querySelector('.diagnosis').getBoundingClientRect().bottom + scrollY")
    if bottom > FIRST_SCREEN:
        yield "the diagnosis ends %d pixels below the top of the page" % bottom


def links_unfold(page):
    """A link to a part opens it."""
    is_open = page.evaluate("""(() => {
      location.hash = '#numbers';
      unfold();
      return document.querySelector('#numbers > details').open;
    })()""")
    if not is_open:
        yield "a link to a part does not unfold it"


def changes_give_a_line(page, text, program):
    """The first change's line can be run."""
    line = page.evaluate("(line => line && line.textContent)(document.querySelector('.change code'))")
    if not line:
        return
    done = subprocess.run([WHATIF, text, *shlex.split(line)[2:]], capture_output=True, text=True,
                          env=dict(os.environ, SPANPROF=program), check=False)
    if done.returncode or "span" not in done.stdout:
        yield "the line %r fails: %s" % (line, done.stderr)


def focus_goes_through(page):
    """By Tab alone one comes to each kind of control."""
    page.evaluate("document.activeElement.blur()")
    seen = set()
    able = "a, button, select, input, summary, [tabindex]"
    for _ in range(page.evaluate("document.querySelectorAll('%s').length" % able) + 1):
        page.key("Tab")
        seen.add(page.evaluate("document.activeElement.className || document.activeElement.tagName"))
        if {"lanes", "BUTTON", "SUMMARY"} <= seen:
            return
    yield "Tab comes to %s alone" % sorted(seen)


def drive(page, text, program):
    """All trials. Those of the timelines are left out where nothing takes time."""
    yield from the_diagnosis_is_one_screen(page)
    yield from links_unfold(page)
    page.evaluate(UNFOLD)
    page.settled()
    trials = [tables_sort]
    if has_timeline(page):
        trials += [focus_goes_through, keys_zoom_and_move, letters_zoom_and_move, a_key_goes_along_the_path,
                   mouse_tells, mouse_zooms_and_moves, names_stand_in_bars, segments_are_chosen,
                   runs_zoom_by_themselves, regions_and_threads_are_chosen, fingers_are_reported, fingers_zoom]
    for trial in trials:
        yield from trial(page)
    yield from what_was_measured_is_reported(page, text)
    yield from changes_give_a_line(page, text, program)
