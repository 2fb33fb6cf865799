#!/usr/bin/env python3
"""Opens pages in Chromium and tries them: errors, sizes, looks, keys and mouse; leaves pictures and a PDF of each.

    visit.py PROGRAM FOLDER NAME ..    FOLDER has NAME.html and the texts; PROGRAM is spanprof
Status 1 where something is wrong, 2 where there is no browser.
"""
import json
import os
import re
import sys

from devtools import Browser, Refused, find_browser
from driving import drive

HERE = os.path.dirname(os.path.abspath(__file__))
MOST_BYTES = 2 * 1024 * 1024
LOOKS = (("light", 1280, "light", ""), ("dark", 1280, "dark", ""), ("wide", 1920, "light", ""),
         ("narrow", 390, "light", ""), ("narrow-dark", 390, "dark", ""), ("print", 794, "light", "print"))


def looks():
    with open(os.path.join(HERE, "looks.js"), encoding="utf-8") as file:
        return file.read()


def look_at(browser, path, look, script):
    """What is wrong in one window; leaves a picture."""
    name, width, scheme, media = look
    page = browser.page(width)
    page.emulate(scheme, media)
    page.open(path)
    page.settled()
    faults = page.complaints() + page.evaluate(script)
    page.evaluate("document.querySelectorAll('details').forEach(part => { part.open = true; })")
    page.settled()
    faults += [fault for fault in page.evaluate(script) if fault not in faults]
    page.screenshot("%s-%s.png" % (os.path.splitext(path)[0], name))
    page.close()
    return ["%s: %s" % (name, fault) for fault in faults]


SPOIL = """
    document.querySelectorAll('details').forEach(part => { part.open = true; });
    document.querySelector('.chart text').setAttribute('x', '-30');
    document.querySelector('h2').style.color = getComputedStyle(document.body).backgroundColor;
    document.querySelector('section').style.minWidth = '3000px';
    console.error('spoilt')"""
SPOILT = ("console: ", "cut off: ", "contrast 1.0: ", "the page is ")


def try_spoilt(browser, path):
    """Of a page that is spoilt on purpose the faults that are not seen."""
    page = browser.page()
    page.open(path)
    page.evaluate(SPOIL)
    faults = page.evaluate(looks()) + page.complaints()
    page.close()
    return ["not seen on a spoilt page: " + kind for kind in SPOILT
            if not any(fault.startswith(kind) for fault in faults)]


def try_print(browser, path):
    page, pdf = browser.page(), os.path.splitext(path)[0] + ".pdf"
    page.open(path)
    page.pdf(pdf)
    page.close()
    with open(pdf, "rb") as file:
        data = file.read()
    pages = len(re.findall(rb"/Type ?/Page\b(?!s)", data))
    return [] if data.startswith(b"%PDF") and pages else ["the PDF has %d pages" % pages]


def try_driving(browser, path, text, program):
    page = browser.page()
    page.open(path)
    faults = list(drive(page, text, program)) + page.complaints()
    page.close()
    return faults


def text_of(path):
    """The text that a page is of; it lies beside the page."""
    with open(path, encoding="utf-8") as file:
        name = re.search(r'id="data">\{"name":("(?:[^"\\]|\\.)*")', file.read())[1]
    return os.path.join(os.path.dirname(path), json.loads(name))


def faults_of(browser, program, folder, name):
    try:
        return try_page(browser, program, folder, name)
    except (Refused, OSError) as reason:
        return [str(reason)]


def try_page(browser, program, folder, name):
    path = os.path.join(folder, name + ".html")
    size = os.path.getsize(path)
    faults = ["%d bytes are more than %d" % (size, MOST_BYTES)] if size > MOST_BYTES else []
    for look in LOOKS:
        faults += look_at(browser, path, look, looks())
    return faults + try_print(browser, path) + try_driving(browser, path, text_of(path), program)


def main(words):
    if len(words) < 3:
        sys.exit(__doc__)
    program, folder, *names = words
    if not find_browser():
        print("no Chromium (Debian: chromium)")
        sys.exit(2)
    with Browser(find_browser()) as browser:
        unseen = try_spoilt(browser, os.path.join(folder, names[0] + ".html"))
        wrong = len(unseen)
        print("\n".join(unseen or ["a spoilt page: right"]), flush=True)
        for name in names:
            faults = faults_of(browser, program, folder, name)
            wrong += len(faults)
            print("%s: %s" % (name, "%d wrong" % len(faults) if faults else "right"), flush=True)
            for fault in faults[:20]:
                print("  " + fault, flush=True)
    sys.exit(wrong > 0)


if __name__ == "__main__":
    main(sys.argv[1:])
