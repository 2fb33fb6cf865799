"""The tables of mutants, beside the sources that they speak of."""
import re
import unittest

from spanprof.conformance.run.mutants import FOLDER, LACKING, MEANINGS, family_of, mutants_of, mutated


def named_in(*files):
    """The mutants that sources ask for."""
    return {name for file in files for name in re.findall(r'mutant_is\("([^"]+)"\)', (FOLDER / file).read_text())}


class Tables(unittest.TestCase):
    def test_each_source_has_the_mutants_of_its_runtime(self):
        for family in LACKING:
            self.assertEqual(named_in(f"{family}.c", "mutant.h"), set(mutants_of(family)), family)

    def test_what_a_runtime_lacks_is_a_mutant_of_another(self):
        for family, lacking in LACKING.items():
            self.assertLessEqual(lacking, set(MEANINGS), family)
        self.assertFalse(set.intersection(*LACKING.values()))

    def test_families(self):
        self.assertEqual(family_of("/usr/lib/x86_64-linux-gnu/libgomp.so.1.0.0"), "gomp")
        self.assertEqual(family_of("/usr/lib/llvm-16/lib/libomp.so.5"), "kmp")
        self.assertEqual(family_of("/opt/lib/libiomp5.so"), "kmp")
        self.assertEqual(family_of("/tmp/out-mutants/gomp/none.so", "gomp"), "gomp")
        self.assertEqual(family_of("/opt/lib/libomp.so", "gomp"), "kmp")

    def test_environment(self):
        self.assertEqual(mutated({"A": "b"}, "m.so", "hang"), {"A": "b", "LD_PRELOAD": "m.so", "MUTANT": "hang"})
        self.assertEqual(mutated({"LD_PRELOAD": "omp.so"}, "m.so", "hang")["LD_PRELOAD"], "m.so omp.so")


if __name__ == "__main__":
    unittest.main()
