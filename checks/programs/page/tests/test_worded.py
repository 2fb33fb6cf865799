"""The words that pages on callers.c have to have, looked for in pages that a test makes up."""
import unittest

from worded import LONGEST, faults_of, words_of

BOX = '<text x="1"><tspan class="given">called from %s at callers.c:4</tspan></text>'


class Words(unittest.TestCase):
    def test_what_a_reader_sees(self):
        page = "<p>the <b>text</b> .</p><title>no</title><svg><text>a&lt;b</text></svg><script>no</script>x_<wbr/>y"
        self.assertEqual(words_of(page), "the text. a<b x_y")

    def test_what_is_missing_and_what_is_wrong(self):
        faults = list(faults_of("callers", "<p>It ends the region's own code.</p>"))
        self.assertIn("has: It ends the region's own code.", faults)
        self.assertTrue(any(fault.startswith("lacks: ") and "the whole program" in fault for fault in faults))

    def test_lines_of_boxes(self):
        found = [fault for fault in faults_of("callers", BOX % "main" + BOX % ("f" * LONGEST)) if "too long" in fault]
        self.assertEqual(len(found), 1)


if __name__ == "__main__":
    unittest.main()
