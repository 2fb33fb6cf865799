"""Random logs of runs, legal ones and others, for replay documents."""


def in_order(segments, worker=lambda: 0):
    """The run of all segments in their order, which is legal: what must precede a segment has a smaller number."""
    events = []
    for segment in range(segments):
        at = worker()
        events += [("start", at, segment), ("finish", at, segment)]
    return events


def swapped(rng, events, place):
    """The event and the one behind it the other way round, which is legal where neither waits for the other."""
    events[place:place + 2] = reversed(events[place:place + 2])


def dropped(rng, events, place):
    del events[place]


def doubled(rng, events, place):
    events.insert(place, events[place])


def of_another_worker(rng, events, place):
    verb, _, segment = events[place]
    events[place] = verb, rng.choice((0, 1, 2, 63, 64)), segment


def of_another_segment(rng, events, place):
    verb, worker, segment = events[place]
    events[place] = verb, worker, max(0, segment + rng.choice((-1, 1, 2)))


def cut(rng, events, place):
    del events[place:]


CHANGES = (swapped, swapped, swapped, dropped, doubled, of_another_worker, of_another_segment, cut)


def draw_events(rng, segments):
    events = in_order(segments, lambda: rng.randrange(3))
    for _ in range(rng.choice((0, 1, 1, 2, 5))):
        if events:
            rng.choice(CHANGES)(rng, events, rng.randrange(len(events)))
    return events


def written(events):
    return "".join("%s %d %d\n" % event for event in events)


def draw_document(rng, text, segments):
    """The text with such a log behind it; now and then with words that are no events, or without the divider."""
    if rng.random() < 0.05:
        return text
    log = written(draw_events(rng, segments)) + rng.choice(("", "", "", "", "start 0\n", "go 0 0\n", "--- # \n"))
    return text + rng.choice(("---\n", "---\r\n")) + log
