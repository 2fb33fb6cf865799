"""What the options ask for."""
import os
import unittest

from spanprof.conformance.judge.verdicts import Missing
from spanprof.conformance.opening import preloaded


class Preloaded(unittest.TestCase):
    def test_a_library_that_is_not_there(self):
        for libraries in ("/none.so", f"{os.__file__} /none.so", f"{os.__file__}:/none.so"):
            with self.assertRaisesRegex(Missing, "^--preload /none.so: no such file$"):
                preloaded(libraries)

    def test_libraries_that_may_be_loaded(self):
        for libraries in ("libgomp.so.1", os.__file__):
            self.assertEqual(preloaded(libraries), {**os.environ, "LD_PRELOAD": libraries})
        self.assertEqual(preloaded(""), dict(os.environ))
