import fnmatch
import re
import unittest

from spanprof.conformance.run import self_checking
from spanprof.conformance.data import DATA
from spanprof.conformance.generate.directed import directed_files

PAGE = DATA / "OPENMP.md"
ROW = re.compile(r"\| ([\d., to]+) \| (.*) \| (.*) \|$")


def rows():
    return [match.groups() for match in map(ROW.match, PAGE.read_text().splitlines()) if match]


def patterns(tried):
    return [word for word in re.findall(r"`([^`]*)`", tried) if "/" not in word and word != "orphaned"]


class TheTable(unittest.TestCase):
    NAMES = {path.stem for path in [*directed_files(), *self_checking.files()]}

    def test_each_row_names_programs_or_says_why_not(self):
        self.assertGreater(len(rows()), 60)
        for section, what, tried in rows():
            with self.subTest(section=section, what=what):
                self.assertTrue(patterns(tried) or "checks/" in tried or tried.startswith("not tried: "), tried)

    def test_each_pattern_fits_a_program(self):
        for section, what, tried in rows():
            for pattern in [] if tried.startswith("not tried") else patterns(tried):
                with self.subTest(section=section, what=what, pattern=pattern):
                    self.assertTrue(fnmatch.filter(self.NAMES, pattern), "no program has this name")

    def test_each_program_stands_in_a_row(self):
        named = {name for _, _, tried in rows() for pattern in patterns(tried)
                 for name in fnmatch.filter(self.NAMES, pattern)}
        self.assertEqual(sorted(self.NAMES - named), [], "no row of tools/conformance/OPENMP.md has these programs")


if __name__ == "__main__":
    unittest.main()
