"""What a terminal shows of a diagnosis, and what of it a page has, on words that a test makes up."""
import unittest

from first_screens import missing, sentences

SAID = """bfs: 119 ms on 4 threads of LLVM 19. At best 31.0 ms.
lost  40 %  threads wait for critical at bfs.cpp:9, entered 9 < 10 times
do    shorter code in it                                                 119 ms -> 69.0 ms
sure  1 run
lost  90 %  nothing
"""
PAGE = '<div class="diagnosis given"><p>threads wait for critical at bfs.cpp:9, entered <b>9 &lt; 10</b> times</p>' \
    '%s<p class="sure">1 run</p></div>'


class FirstScreens(unittest.TestCase):
    def test_sentences_up_to_how_sure_it_is(self):
        self.assertEqual(sentences(SAID), ["threads wait for critical at bfs.cpp:9, entered 9 < 10 times",
                                           "shorter code in it"])

    def test_what_a_page_lacks(self):
        self.assertEqual(missing(PAGE % "<p>shorter code in it</p>", SAID), [])
        self.assertEqual(missing(PAGE % "", SAID), ["shorter code in it"])

    def test_no_diagnosis(self):
        self.assertEqual(missing(PAGE % "", "nothing is recorded"), ["no cause"])


if __name__ == "__main__":
    unittest.main()
