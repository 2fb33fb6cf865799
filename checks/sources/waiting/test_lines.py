"""Tests of lines.py: python3 -m unittest checks/sources/waiting/test_lines.py"""
import unittest

from lines import changed_functions, functions, missing_steps, renoted

SOURCE = """trait Ends {
    fn end(&self);
}

impl Signal {
    /// Ends all.
    pub(crate) fn end(&self) {
        // at last
        self.over.store(true);
    }

    fn other(&self) {}
}
"""


class Lines(unittest.TestCase):
    def test_a_step_names_a_line(self):
        model = "/* signal.rt: self.over.store(true); */ over = true; /* any words */"
        self.assertEqual(missing_steps(model, {"signal.rt": SOURCE}), [])
        self.assertEqual(missing_steps(model, {}), [("signal.rt", "self.over.store(true);")])

    def test_a_changed_line_is_missing(self):
        model = "/* signal.rt: self.over.store(false); */"
        self.assertEqual(len(missing_steps(model, {"signal.rt": SOURCE})), 1)

    def test_all_functions_of_a_name(self):
        self.assertEqual(len(functions(SOURCE, "end")), 5)
        self.assertEqual(functions(SOURCE, "gone"), [])

    def test_a_changed_function_is_reported(self):
        noted = renoted("signal.rt end -\n", {"signal.rt": SOURCE})
        self.assertEqual(changed_functions(noted, {"signal.rt": SOURCE}), [])
        commented = SOURCE.replace("at last", "now")
        self.assertEqual(changed_functions(noted, {"signal.rt": commented}), [])
        changed = SOURCE.replace("true", "false")
        self.assertEqual(changed_functions(noted, {"signal.rt": changed}), [("signal.rt", "end")])
        self.assertEqual(changed_functions(noted, {}), [("signal.rt", "end")])


if __name__ == "__main__":
    unittest.main()
