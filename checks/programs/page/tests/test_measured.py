import os
import tempfile
import unittest
from unittest import mock

from measured import what_was_measured_is_reported


class Pages(unittest.TestCase):
    def faults(self, reported, *answers):
        with tempfile.TemporaryDirectory() as folder:
            if reported:
                with open(os.path.join(folder, "scale.json"), "w", encoding="utf-8") as file:
                    file.write(reported)
            return list(what_was_measured_is_reported(mock.Mock(evaluate=mock.Mock(side_effect=answers)), folder))

    def test_what_has_to_be_there(self):
        self.assertEqual(self.faults(""), [])
        self.assertEqual(self.faults('{"threads": [{}, {}]}', 2), [])
        self.assertEqual(self.faults('{"threads": [{}, {}]}', 1), ["1 true times are drawn, and not 2"])


if __name__ == "__main__":
    unittest.main()
