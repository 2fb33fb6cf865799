import os
import tempfile
import unittest

from recording import names_of, remove


class Names(unittest.TestCase):
    def test_a_turn_has_nothing_of_another_one_whose_number_begins_so(self):
        with tempfile.TemporaryDirectory() as folder:
            name = os.path.join(folder, "tree.4.3")
            for made in ("", ".17", "0"):
                os.makedirs(name + made + ".spanprof/log")
            self.assertEqual(names_of(name), [name, name + ".17"])
            remove(name)
            self.assertEqual(os.listdir(folder), ["tree.4.30.spanprof"])


if __name__ == "__main__":
    unittest.main()
