#!/usr/bin/env python3
"""A picture of a page, from its top to the end of one part, as docs/page.png is; or of that part alone, as the others.

    picture.py PAGE.html PICTURE.png PART WIDTH SCALE [alone]    PART is a selector, such as '#timeline .lanes'
"""
import json
import sys

from devtools import Browser, find_browser
from driving import UNFOLD

EDGES = "(p => p && [p.getBoundingClientRect().top + scrollY, p.getBoundingClientRect().bottom + scrollY])" \
    "(document.querySelector(%s))"


def main(words):
    if len(words) != 5 and words[5:] != ["alone"]:
        sys.exit(__doc__)
    if not find_browser():
        sys.exit("no Chromium (Debian: chromium)")
    source, picture, part, width, scale = words[:5]
    with Browser(find_browser()) as browser:
        page = browser.page(int(width))
        page.emulate("light")
        page.open(source)
        page.evaluate(UNFOLD if words[5:] else "")
        page.settled()
        edges = page.evaluate(EDGES % json.dumps(part))
        if not edges:
            sys.exit("%s has no part %s" % (source, part))
        top = edges[0] if words[5:] else 0
        clip = {"x": 0, "y": top, "width": int(width), "height": edges[1] - top, "scale": float(scale)}
        page.keep(picture, page.call("Page.captureScreenshot", format="png", captureBeyondViewport=True, clip=clip))


if __name__ == "__main__":
    main(sys.argv[1:])
