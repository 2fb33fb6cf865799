"""Compares what a program answers with what the library does, called from C and from Python, and counts."""
import answers
import spanprof


class Comparison:
    """`ask` is the program of ask.c."""

    def __init__(self, ask=None):
        self.ask = ask
        self.made = self.wrong = 0

    def compare(self, name, words, text, wanted, seen=lambda reported: reported):
        """What `wanted`, a program with its words, answers to the text, and what the library does, asked with `words`,
        have to be the same; `seen` is what is looked at of the program's answer."""
        try:
            status, reported = answers.of_program(wanted, text)
            found = {"C": answers.of_program([self.ask, *words], text),
                     "Python": answers.of_module(spanprof, words, text)}
        except RuntimeError as error:
            self.made, self.wrong = self.made + 1, self.wrong + 1
            print("WRONG: %s: %s" % (name, error), flush=True)
            return
        for caller, answer in found.items():
            self.made += 1
            if answer != (status, seen(reported)):
                self.wrong += 1
                print("WRONG: %s of %s from %s: %r, and not %r" % (" ".join(words), name, caller, answer,
                                                                   (status, seen(reported))), flush=True)
