#!/usr/bin/env python3
"""Finds long sentences and long lines in the documents, and too many words in all of them or some.

    checks/sources/sentences.py [FILE ..]
The files are all documents (*.md) of the repository if none is named. A sentence has at most 35 words, and a line at
most 120 columns. Blocks of code are left out, headings too; a row of a table may be of any width, and each of its
cells is text of its own. A word is what stands between blanks, in code too; a link counts by its text. README.md
has at most 1,000 words, with CONTRIBUTING.md and docs/ 20,000, and all documents have 40,000, blocks of code included.
"""
import pathlib
import re
import sys

TOP = pathlib.Path(__file__).resolve().parents[2]
MOST_WORDS = 35
MOST_COLUMNS = 120
MOST_IN_ALL = {"the front page": 1000, "readers' documents": 20000, "all documents": 40000}
FENCE = re.compile(r"\s*(```|~~~)")
HEADING = re.compile(r"#+ ")
ITEM = re.compile(r"\A\s*(?:[-*+]|\d+\.) +")
QUOTE = re.compile(r"\A\s*> ?")
RULER = re.compile(r"[\s|:-]+$")
CELLS = re.compile(r"(?<!\\)\|")
CODE = re.compile(r"(`+)(.+?)\1", re.S)
LINK = re.compile(r"!?\[([^\]]*)\]\([^)\s]*\)")
SIGNS = re.compile(r"[^\s`]")
END = re.compile(r"(?:(?<!\.)[.!?]|\.\.\.)[\"')*_]*(?=\s)(?<!e\.g\.)(?<!i\.e\.)")


def without_code(text):
    """Pairs of a line's number and the line, without the blocks of code and their fences."""
    inside = None
    for number, line in enumerate(text.splitlines(), 1):
        fence = FENCE.match(line)
        if inside is None and not fence:
            yield number, line
        elif inside is None:
            inside = fence.group(1)
        elif fence and fence.group(1) == inside:
            inside = None


def is_row(line):
    return line.lstrip().startswith("|")


def paragraphs(lines):
    """Pairs of the number of a paragraph's first line and its lines; an item, and each cell of a row, is one."""
    start, kept, last = 0, [], 0
    for number, line in lines:
        alone = HEADING.match(line) or is_row(line) or not line.strip()
        if kept and (alone or ITEM.match(line) or number != last + 1):
            yield start, kept
            kept = []
        if is_row(line) and not RULER.match(line):
            yield from ((number, [cell]) for cell in CELLS.split(line))
        elif not alone:
            start = start if kept else number
            kept.append(QUOTE.sub("", ITEM.sub("", line) if not kept else line))
        last = number
    if kept:
        yield start, kept


def sentences(start, lines):
    """Pairs of the number of a sentence's first line and the sentence, of one paragraph."""
    text = "\n".join(lines)
    plain, begin = CODE.sub(lambda code: SIGNS.sub("x", code.group()), text), 0
    for end in [found.end() for found in END.finditer(plain)] + [len(text)]:
        sentence = text[begin:end]
        if sentence.strip():
            before = begin + len(sentence) - len(sentence.lstrip())
            yield start + text.count("\n", 0, before), " ".join(sentence.split())
        begin = end


def words(sentence):
    return len(LINK.sub(r"\1", sentence).split())


def faults(text):
    """Triples of a line's number, what is wrong there, and where: long sentences and long lines, in order."""
    found = []
    for number, line in without_code(text):
        if len(line) > MOST_COLUMNS and not is_row(line):
            found.append((number, "%d columns" % len(line), line.strip()))
    for start, lines in paragraphs(without_code(text)):
        for number, sentence in sentences(start, lines):
            if words(sentence) > MOST_WORDS:
                found.append((number, "%d words" % words(sentence), sentence))
    return sorted(found)


def documents():
    """The documents of the repository, without what is built and what is hidden."""
    for path in sorted(TOP.rglob("*.md")):
        parts = path.relative_to(TOP).parts
        if "out" not in parts and not any(part.startswith(".") for part in parts):
            yield path


def words_in_all(pages):
    """Of each of MOST_IN_ALL, by the documents' texts below the top."""
    front = len(pages["README.md"].split())
    for_readers = [text for path, text in pages.items() if re.match(r"(README|CONTRIBUTING|docs/[^/]*)\.md$", path)]
    return dict(zip(MOST_IN_ALL, (front, *(sum(len(text.split()) for text in texts)
                                           for texts in (for_readers, pages.values())))))


def too_many(pages):
    """A line for each that has too many words."""
    for name, count in words_in_all(pages).items():
        if count > MOST_IN_ALL[name]:
            yield "%s: %d words, and %d at most" % (name, count, MOST_IN_ALL[name])


def main(names):
    wrong = 0
    pages = {} if names else {str(path.relative_to(TOP)): path.read_text(encoding="utf-8") for path in documents()}
    for line in too_many(pages) if pages else ():
        print(line)
        wrong += 1
    for path in [pathlib.Path(name).resolve() for name in names] or documents():
        shown = path.relative_to(TOP) if TOP in path.parents else path
        for number, what, where in faults(path.read_text(encoding="utf-8")):
            print("%s:%d: %s: %s" % (shown, number, what, where))
            wrong += 1
    print("%d wrong" % wrong)
    sys.exit(wrong > 0)


if __name__ == "__main__":
    main(sys.argv[1:])
