"""What `spanprof-record --scale` has measured, as a page draws it: a square for each number of threads of the curve."""
import json
import os

SQUARES = "document.querySelectorAll('.chart .true').length"


def what_was_measured_is_reported(page, text):
    reported = os.path.join(text, "scale.json")
    if not os.path.exists(reported):
        return
    with open(reported, encoding="utf-8") as file:
        rows = json.load(file)["threads"]
    squares = page.evaluate(SQUARES)
    if squares != len(rows):
        yield "%s true times are drawn, and not %d" % (squares, len(rows))
