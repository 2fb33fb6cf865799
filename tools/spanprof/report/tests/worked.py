"""Worked programs with spanprof's answers, so that the tests need no spanprof.

    python3 -m spanprof.report.tests.worked record    in tools/: asks spanprof, and keeps its answers
    python3 -m spanprof.report.tests.worked check     ends with status 1 where it answers otherwise than is kept
"""
import hashlib
import json
import os
import sys
from unittest import mock

from spanprof.command import Fault
from spanprof.report.part_curve import NAMES, Point
from spanprof.report.tests.worked_files import FOLDER, path

KEPT = path("answers.json")
TEXTS = ("mesh", "split", "plain", "odd")


def key(words, text):
    """Words, and a short name of the text, or of a document, which may be an open file."""
    if hasattr(text, "seek"):
        text.seek(0)
        read = text.read().decode()
        text.seek(0)
    else:
        read = str(text)
    if hasattr(text, "rest"):
        text.rest = list(text.rest)     # to be read again
        read += "".join(text.rest)[:-1]
    return "%s < %s" % (" ".join(words), hashlib.sha256(read.encode()).hexdigest()[:12])


def kept_answers():
    with open(KEPT, encoding="utf-8") as file:
        return json.load(file)


def document(file):
    with open(file, encoding="utf-8") as opened:
        return opened.read()


def pieces_of(ask):
    """What the client reads as it comes, of a program that answers so."""
    def pieces(words, text):
        first, _, rest = ask(words, text).encode().partition(b"\n")
        yield first + b"\n"
        yield rest
    return pieces


class Kept:
    """Answers as spanprof gave them; an error line where that is what is kept."""

    def __init__(self):
        self.answers = kept_answers()

    def __call__(self, words, text):
        answer = self.answers[key(words, text)]
        if answer.startswith("error"):
            raise Fault("spanprof %s: %s" % (words[0], answer))
        return answer


def true_times_beside(answers):
    """A worked text is no recording: its scale stands beside it."""
    file = answers.path.replace(".tasks", ".scale.json")
    rows = json.loads(document(file))["threads"] if os.path.exists(file) else []
    return [Point(*(row[name] for name in NAMES)) for row in rows]


class Patched:
    """The kept answers in place of both programs; a diagnosis, which asks much more, is none of them."""

    def __init__(self):
        kept = Kept()
        self.patches = [mock.patch("spanprof.client.ask", kept), mock.patch("spanprof.client.pieces", pieces_of(kept)),
                        mock.patch("spanprof.report.view.true_times_beside", true_times_beside),
                        mock.patch("spanprof.report.view.diagnosis_of", return_value=None)]

    def start(self):
        for patch in self.patches:
            patch.start()

    def stop(self):
        for patch in self.patches:
            patch.stop()

    def __enter__(self):
        self.start()

    def __exit__(self, *_):
        self.stop()


def patched():
    return Patched()


def view_without_page(name, **more):
    from spanprof.report.view import View
    return View(path(name + ".tasks"), source=[FOLDER], **more)


def view(name="mesh", **more):
    with patched():
        made = view_without_page(name, **more)
        from spanprof.report.page import page
        page(made)      # asks for all that the page needs
    return made


def page_text(name):
    from spanprof.report.page import page
    return page(view_without_page(name))


def noting(out, ask):
    """A program's answers, which are kept by words and text."""
    def asked(words, text):
        name = key(words, text)
        try:
            out[name] = ask(words, text)
        except Fault as reported:
            out[name] = str(reported).partition(": ")[2]
            raise
        return out[name]
    return asked


def asked_now():
    """All that the pages and their comparison ask of spanprof and spanprof_large, with what they answer."""
    from spanprof import client
    from spanprof.report.tests.compare import differences
    out = {}
    asked = noting(out, client.ask)
    with mock.patch("spanprof.client.ask", asked), mock.patch("spanprof.client.pieces", pieces_of(asked)), \
            mock.patch("spanprof.report.view.true_times_beside", true_times_beside), \
            mock.patch("spanprof.report.view.diagnosis_of", return_value=None):
        for name in TEXTS:
            wrong, _ = differences(page_text(name), path(name + ".tasks"), asked)
            if wrong:
                sys.exit("\n".join(wrong))
    return out


def main(words):
    if words == ["record"]:
        now = asked_now()
        with open(KEPT, "w", encoding="utf-8") as file:
            json.dump(now, file, indent=1, sort_keys=True)
            file.write("\n")
    elif words == ["check"]:
        kept, now = kept_answers(), asked_now()
        wrong = [name for name in sorted(set(kept) | set(now)) if kept.get(name) != now.get(name)]
        for name in wrong:
            print("otherwise than kept:", name)
        print("%d answers, %d wrong" % (len(now), len(wrong)))
        sys.exit(bool(wrong))
    else:
        sys.exit(__doc__)


if __name__ == "__main__":
    main(sys.argv[1:])
