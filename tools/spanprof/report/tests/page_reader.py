"""The numbers of a page with the sources that they name, and the digits that stand there without a source."""
import re
from dataclasses import dataclass
from html.parser import HTMLParser

EMPTY = {"br", "hr", "input", "meta", "wbr", "line", "rect", "circle", "path", "polyline", "polygon"}
NUMBER = r"[+−]?\d[\d,]*(?:\.\d+)?"
# what is no number of spanprof: names, words of the text's head, ticks of an axis, keys, commands
WITHOUT_SOURCE = {"place", "given", "axis"}
NAMES = {"title", "code", "kbd", "h1", "nav", "style", "script"}


@dataclass
class Figure:
    """The numbers of one element, as they are seen, and the source of each."""
    sources: list
    exact: str = ""         # the value that the element carries, where it has one
    words: str = ""
    rounded: str = ""       # up or down, where it is not to the nearest
    scale: float = 1        # what the number is divided by where it is seen

    @property
    def shown(self):
        found = re.findall(NUMBER, self.words)
        return found[:1] if self.exact else found


@dataclass
class Element:
    tag: str
    figure: object = None
    is_name: bool = False
    is_data: bool = False


class Reader(HTMLParser):
    def __init__(self):
        super().__init__()
        self.open, self.figures, self.without_source, self.data = [], [], [], ""

    def handle_starttag(self, tag, attributes):
        named = dict(attributes)
        element = Element(tag, is_data=named.get("id") == "data")
        classes = set((named.get("class") or "").split())
        above = self.open[-1] if self.open else Element("")
        element.is_name = above.is_name or tag in NAMES or bool(classes & WITHOUT_SOURCE) or tag == "h2"
        element.figure = above.figure
        if named.get("data-from"):
            element.figure = Figure(named["data-from"].split("; "), named.get("value", ""), "",
                                    named.get("data-rounded", ""), float(named.get("data-scale", 1)))
            self.figures.append(element.figure)
        if tag not in EMPTY:
            self.open.append(element)

    def handle_startendtag(self, tag, attributes):
        """Like an element with an end of its own."""
        self.handle_starttag(tag, attributes)
        if tag not in EMPTY:
            self.handle_endtag(tag)

    def handle_endtag(self, tag):
        while self.open and self.open.pop().tag != tag:
            pass

    def handle_data(self, words):
        here = self.open[-1] if self.open else Element("")
        if here.is_data:
            self.data += words
        elif here.figure:
            here.figure.words += words
        elif not here.is_name and re.search(r"\d", words):
            self.without_source.append(words.strip())


def read_page(text):
    reader = Reader()
    reader.feed(text)
    return reader
