"""What a timeline does beside zoom and movement: names, choice, fingers. Each trial yields faults."""
import json


def widest(page):
    """Shows the widest bar of the first timeline from close by; where its middle is in the window, and its segment."""
    return page.evaluate("""(() => {
      const lanes = allLanes[0];
      lanes.element.scrollIntoView({block: 'center'});
      const all = lanes.rows.flatMap((row, i) => row.map(bar => ({...bar, i})));
      const bar = all.reduce((a, b) => b.end - b.start > a.end - a.start ? b : a);
      lanes.stretch.show(2 * bar.start - bar.end, 3 * (bar.end - bar.start));
      lanes.draw();
      const box = lanes.element.getBoundingClientRect(), middle = (bar.start + bar.end) / 2;
      return {x: box.left + lanes.x(middle), y: box.top + lanes.top(bar.i) + lanes.height / 2, segment: bar.segment,
              left: box.left + LEFT, right: box.right, rows: lanes.rows.length};
    })()""")


def show_all(page):
    page.evaluate("(lanes => { lanes.stretch.show(0, lanes.stretch.whole); leave(lanes); })(allLanes[0])")


def names_stand_in_bars(page):
    bar = widest(page)
    if bar["rows"] <= 16 and not page.evaluate("allLanes[0].element.querySelectorAll('text.name').length"):
        yield "no name stands in the widest bar"
    show_all(page)


def segments_are_chosen(page):
    """A click on a bar draws an arrow for each segment that it waited for and that waited for it."""
    bar = widest(page)
    page.mouse("mousePressed", bar["x"], bar["y"], button="left", buttons=1, clickCount=1)
    page.mouse("mouseReleased", bar["x"], bar["y"], button="left", clickCount=1)
    seen = page.evaluate("""(() => {
      const lanes = allLanes[0], { before, after } = program.waits, of = (list) => list[lanes.chosen] || [];
      const count = (name) => lanes.element.querySelectorAll('path.' + name + ':not(.head)').length;
      return {chosen: lanes.chosen, arrows: [count('waited'), count('waits')],
              wanted: [before, after].map((list) => Math.min(MOST_ARROWS, lanes.chosen === null ? 0
                : neighbours(lanes, list, lanes.chosen).length)), box: !!lanes.element.querySelector('.cursor')};
    })()""")
    if seen["chosen"] != bar["segment"] or not seen["box"]:
        yield "a click on segment %d chooses %s" % (bar["segment"], seen["chosen"])
    if seen["arrows"] != seen["wanted"]:
        yield "%s arrows, and not %s" % (seen["arrows"], seen["wanted"])
    show_all(page)


def runs_zoom_by_themselves(page):
    lengths = "allLanes.map(lanes => lanes.stretch.length)"
    before = page.evaluate(lengths)
    page.evaluate("allLanes[0].element.focus()")
    page.key("+", "+")
    after = page.evaluate(lengths)
    if not after[0] < before[0] or after[1:] != before[1:]:
        yield "the runs do not zoom by themselves: %s, %s" % (before, after)
    if page.evaluate("allLanes.length > 1 && document.querySelector('details.greedy') ? "
                     "document.querySelector('details.greedy').hasAttribute('open') : false"):
        yield "the greedy schedule is not folded away"
    show_all(page)


def choose(page, what, index):
    """Chooses so in the first timeline, where there is such a choice; its value, or nothing."""
    return page.evaluate("""((what, index) => {
      const select = allLanes[0].figure.querySelector('[data-choose=' + what + ']');
      if (!select) return null;
      select.selectedIndex = index;
      select.dispatchEvent(new Event('change'));
      allLanes[0].draw();
      return select.value;
    })(%s, %d)""" % (json.dumps(what), index))


def regions_and_threads_are_chosen(page):
    """A region is shown as long as it lasted, a thread alone; then all again."""
    shown = "[allLanes[0].stretch.from, allLanes[0].stretch.to, allLanes[0].rows.length]"
    before, region = page.evaluate(shown), choose(page, "region", 1)
    if region:
        begin, end = map(float, region.split())
        first, last, _ = page.evaluate(shown)
        if not first <= begin + 0.01 * (last - first) or not last >= end - 0.01 * (last - first):
            yield "of the region from %s to %s %s to %s is shown" % (begin, end, first, last)
    choose(page, "region", 0)
    if choose(page, "thread", 2) and page.evaluate(shown)[2] != 1:
        yield "one thread is chosen, and %d are shown" % page.evaluate(shown)[2]
    choose(page, "thread", 0)
    if page.evaluate(shown) != before:
        yield "%s are shown after a choice, and %s before it" % (page.evaluate(shown), before)


def fingers_are_reported(page):
    """A tap on a number tells its title."""
    number = page.evaluate("""(() => {
      const number = document.querySelector('td data');
      number.scrollIntoView({block: 'center'});
      const box = number.getBoundingClientRect();
      return {x: box.left + box.width / 2, y: box.top + box.height / 2, title: number.title};
    })()""")
    page.touch("touchStart", [{"x": number["x"], "y": number["y"], "id": 0}])
    page.touch("touchEnd", [])
    reported = page.evaluate("(t => t ? t.textContent : '')(document.querySelector('.tip.shown'))")
    if reported != number["title"]:
        yield "a tap on a number tells %r, and not %r" % (reported, number["title"])


def fingers_zoom(page):
    """Two fingers that part zoom; one finger that taps a bar tells of it."""
    bar = widest(page)
    show_all(page)
    whole = page.evaluate("allLanes[0].stretch.length")
    near, far = ([{"x": bar["left"] + 300 + d, "y": bar["y"], "id": i} for i, d in enumerate((-part, part))]
                 for part in (20, 120))
    page.touch("touchStart", near)
    page.touch("touchMove", far)
    page.touch("touchEnd", [])
    zoomed = page.evaluate("allLanes[0].stretch.length")
    if not zoomed < whole:
        yield "two fingers do not zoom"
    bar = widest(page)
    page.touch("touchStart", [{"x": bar["x"], "y": bar["y"], "id": 0}])
    page.touch("touchEnd", [])
    if page.evaluate("(t => t ? t.textContent : '')(document.querySelector('.tip.shown'))") == "":
        yield "a tap tells nothing"
    show_all(page)
