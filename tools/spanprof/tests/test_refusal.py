"""Tests of refusal.py, with a stand-in for spanprof that refuses one token."""
import unittest
from unittest import mock

from spanprof import refusal
from spanprof.refusal import AT_LINE, explained, meant, of_byte, open_brace, picture, tokens

TEXT = "omptasks 1\nwork 5  # tasks here\ntask { tasks { } work 3\n}\n"


def refusing(wrong, kind):
    """Answers as spanprof does of a text whose only fault is this token, or that it ends too early."""
    def ask(words, text):
        if words == ["span"] and wrong is None:
            return "segments 4\nwork 11\nspan 9\n"
        for number, line in enumerate(text.split("\n"), 1):
            if any(token.group() == wrong for token in tokens(line)):
                return "error: line %d: %s\n" % (number, kind)
        return "error: line %d: Unclosed\n" % text.count("\n")
    return ask


def reported(answer, wrong=None, words=("span",), text=TEXT):
    kind = AT_LINE.match(answer)
    return explained("mine.tasks", list(words), text, answer, refusing(wrong, kind[2] if kind else ""))


class OfALine(unittest.TestCase):
    def test_the_first_wrong_token_and_the_word_meant(self):
        self.assertEqual(reported("error: line 3: BadWord", "tasks").split("\n"), [
            "mine.tasks:3:8: BadWord: unexpected `tasks`; did you mean `task`?",
            "    3 | task { tasks { } work 3",
            "      |        ^~~~~"])

    def test_the_last_token_of_a_line(self):
        self.assertTrue(reported("error: line 3: BadNumber", "3").endswith("^"))

    def test_a_token_that_is_not_found(self):
        self.assertIn("mine.tasks:2: BadWord: unexpected word\n    2 | work 5",
                      reported("error: line 2: BadWord", "x"))

    def test_the_end_of_the_text(self):
        self.assertIn("the text ends too early", reported("error: line 5: BadWord", "x"))

    def test_every_kind_of_a_line_has_words(self):
        for kind in ("TooLong", "BadByte", "TooDeep", "TooManyItems", "WorkTooLarge", "TooManyTurns", "Unopened"):
            self.assertRegex(reported("error: line 3: " + kind, "}"), "^mine.tasks:3(:[0-9]+)?: %s: .{10}" % kind)

    def test_an_empty_text(self):
        for text in ("", "# nothing\n"):
            self.assertEqual(reported("error: line 1: BadHeader", "x", text=text),
                             "mine.tasks: the text is empty; one begins with `omptasks 1`, or `omptasks 2` where it "
                             "has loops")

    def test_a_version_that_there_is_not(self):
        self.assertIn("there are versions 1 and 2", reported("error: line 1: BadHeader", "3", text="omptasks 3\n"))
        self.assertNotIn("there are versions", reported("error: line 1: BadHeader", "tasks", text="tasks 1\n"))

    def test_what_is_no_text(self):
        for text in ("/* of C */\n", "\x7fELF\n"):
            self.assertEqual(reported("error: line 1: BadByte", text[0], text=text),
                             "mine.tasks: not a program text, which begins with `omptasks 1`; a recording is a folder, "
                             "NAME.spanprof")
        self.assertIn("byte order mark", reported("error: line 1: BadByte", "\ufeff", text="\ufeffomptasks 1\n"))


class NumbersAndBytes(unittest.TestCase):
    def of(self, kind, line, wrong):
        return reported("error: line 2: " + kind, wrong, text="omptasks 2\n%s\n" % line).partition("\n")[0]

    def test_which_numbers_there_may_be(self):
        for line, wrong, words in (("work 9000000000000", "9000000000000", "a cost is a whole number up to 1,0"),
                                   ("task if(7) {", "7", "an `if` or `final` has 0 or 1"),
                                   ("task final( 7", "7", "an `if` or `final` has 0 or 1"),
                                   ("for i 1 7000000", "7000000", "a bound is a whole number up to 1,000,000"),
                                   ("for i n 7000000", "7000000", "a bound is a whole number up to 1,000,000"),
                                   ("task depend(in: a[i+7000000])", "7000000", "an index is from -1,000,000 to"),
                                   ("work 5ms", "5ms", "`5ms` is not a number, and a word does not begin"),
                                   ("  7000000", "7000000", "a cost is a whole number up to 1,000,000,000,000, an")):
            place = "mine.tasks:2:%d: BadNumber: " % (line.index(wrong) + 1)
            self.assertIn(place + words, self.of("BadNumber", line, wrong))

    def test_a_name_that_is_too_long(self):
        name = "a" * 32
        self.assertIn("`, a word of 32 bytes; the most is 31", self.of("BadWord", "task depend(in: %s)" % name, name))

    def test_which_bytes_begin_no_word(self):
        for line, wrong, words in (("work -5", "-", "without a sign or a point"),
                                   ("work 1.5", ".", "without a sign or"),
                                   ("task depend(in: a[1])", "[", "`[` belongs to version 2"),
                                   ("work 5;", ";", "unexpected `;`; blanks"),
                                   ("work\xa05", "\xa0", "unexpected U+00A0"),
                                   ("\ufeffwork", "\ufeff", "without a byte order mark"),
                                   ("\\\0", "\\", "not a program text"), ("PNG\ufffd", "\ufffd", "not a program text"),
                                   ("work 5; # \ufffd", ";", "unexpected `;`; blanks")):
            self.assertIn(words, self.of("BadByte", line, wrong))

    def test_a_document_where_a_text_is_wanted(self):
        self.assertIn("the text ends before `---`; what follows belongs to a replay", of_byte("---", 0))


class Braces(unittest.TestCase):
    def test_the_one_that_nothing_closes(self):
        lines = "task { task {\n}".split("\n")
        self.assertEqual(open_brace(lines, 1).start(), 5)
        self.assertEqual(open_brace("task { task {\n} }".split("\n"), 1), None)
        self.assertEqual(open_brace(["taskgroup { # {"], 1).start(), 10)


class OfMore(unittest.TestCase):
    def test_an_unknown_segment(self):
        self.assertEqual(reported("error: UnknownSegment", words=("whatif", "2=1", "9=4")),
                         "mine.tasks: there is no segment 9; segments are 0 to 3, and `spanprof slack` lists them")

    def test_an_event(self):
        log = TEXT + "---\nstart 0 0 finish 0 0\nstart 0 3\n"
        self.assertEqual(reported("error: event 2: NotReady 1", words=("replay",), text=log),
                         "mine.tasks: `start 0 3`: its predecessor, segment 1, has not finished")
        self.assertIn("workers are 0 to 63", reported("error: event 0: UnknownWorker", words=("replay",), text=log))

    def test_ranges(self):
        self.assertEqual(reported("error: ThreadCount"), "mine.tasks: a number of threads is 1 to 1,024")
        self.assertIn("of different versions", reported("error: wrong words"))

    def test_other_lines_have_no_words(self):
        self.assertEqual(reported("error: Broken 1 3"), "")


class OfALargeText(unittest.TestCase):
    def test_its_token_is_not_looked_for(self):
        with mock.patch.object(refusal, "MOST_ASKED", 10):
            self.assertEqual(reported("error: line 3: BadWord", "tasks").split("\n"), [
                "mine.tasks:3: BadWord: unexpected word", "    3 | task { tasks { } work 3", "      | ^"])


class Parts(unittest.TestCase):
    def test_words_that_are_like_none(self):
        self.assertEqual(meant("zebra"), "")
        self.assertEqual(meant("taskwiat"), "; did you mean `taskwait`?")

    def test_a_long_line_is_cut_around_the_token(self):
        line = "work 1 " * 100 + "bad"
        shown, mark = picture(line, 7, tokens(line)[-1])
        self.assertLess(len(shown), 120)
        self.assertEqual(shown[mark.index("^"):], "bad")

    def test_nothing_reaches_a_terminal_but_what_can_be_printed(self):
        self.assertEqual(picture("\x1b[2J bad", 7, None)[0], "    7 | ?[2J bad")


if __name__ == "__main__":
    unittest.main()
