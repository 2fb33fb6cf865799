"""Tests of what code ran by samples."""
import os
import tempfile
import unittest
from collections import Counter

from spanprof.diagnosis.calls import Ran, Sampled, calls_of, innermost, plain, together

MAIN = ("main", "convert", "plasma")


class Innermost(unittest.TestCase):
    def test_the_innermost_function_with_most_of_the_samples(self):
        self.assertEqual(innermost({MAIN: 95000, ("main", "other"): 5000}), Ran("plasma", "convert", 0.95))
        deep = {MAIN + ("sin",): 60000, MAIN + ("cos",): 40000}
        self.assertEqual(innermost(deep), Ran("plasma", "convert", 1.0))

    def test_where_none_has_most_the_share_is_less(self):
        self.assertEqual(innermost({("main", "read"): 60000, ("main", "sort"): 40000}), Ran("read", "main", 0.6))

    def test_a_function_that_calls_itself_counts_once(self):
        self.assertEqual(innermost({("main", "f", "f", "f"): 50000}), Ran("f", "f", 1.0))

    def test_functions_of_the_system_count_for_their_callers(self):
        self.assertEqual(innermost({MAIN + ("sin@libm.so.6",): 60000}), Ran("plasma", "convert", 1.0))
        self.assertEqual(innermost({("main", "order", "qsort@libc.so.6", "less"): 60000}), Ran("less", "qsort", 1.0))
        self.assertIsNone(innermost({("main", "memset@libc.so.6"): 60000}))

    def test_functions_without_a_symbol_are_passed_over(self):
        self.assertEqual(innermost({("gm", "ReadImage", "[libGM.so.3]", "PlasmaImage", "[libGM.so.3]"): 60000}),
                         Ran("PlasmaImage", "ReadImage", 1.0))
        self.assertIsNone(innermost({("main", "[libGM.so.3]"): 60000}))

    def test_names_as_people_know_them(self):
        for symbol, name in (
                ("void A::f<..>(int, B<..>&)", "A::f"), ("(anonymous namespace)::f(int)", "f"), ("A::~A()", "A::~A"),
                ("bool operator==<..>(A const&, B)", "operator=="), ("T::operator()(int) const", "T::operator()"),
                ("f(int)::{lambda(int)#1}::operator()(int) const", "f"), ("T::operator bool()", "T::operator bool"),
                ("main._omp_fn.0+0x1d", "main"), ("sum.constprop.0", "sum"), ("__scf_MOD_run", "scf::run"),
                ("_QMdensePmultiply..omp_par", "dense::multiply"), ("_QQmain", "main"), ("MAIN__", "main"),
                ("f[abi:cxx11](int)", "f"),
                ("f(int) [clone .omp_outlined]", "f"), ("sort", "sort")):
            self.assertEqual(plain(symbol), name)

    def test_too_few_samples_or_no_function(self):
        self.assertIsNone(innermost({MAIN: 12000}))
        self.assertIsNone(innermost({}))
        self.assertIsNone(innermost({("main",): 99000}))
        self.assertIsNone(innermost({("main", str(i)): 9000 for i in range(9)}))

    def test_an_outermost_function_has_no_caller(self):
        self.assertEqual(innermost({("sort",): 50000}), Ran("sort", "", 1.0))


class Files(unittest.TestCase):
    def test_the_samples_of_segments_are_those_of_their_places(self):
        with tempfile.TemporaryDirectory() as folder:
            path = os.path.join(folder, "calls")
            with open(path, "w", encoding="utf-8") as file:
                file.write("0 ran 8000 main;operator new (unsigned long)\n2 ran 4000 main;b\n0 ran 4000 main;b\n"
                           "7 ran 4000 main\n0 slept 900 main;load;read\n2 shares 4000 a.c:7\n"
                           "1 allocated 4000 a.c:9 parse(char const*)\n1 allocated 2000  \n")
            found = calls_of(path, [0, 1, 0], ["serial", "task"])
        self.assertEqual(found.slept, {"serial": Counter({("main", "load", "read"): 900})})
        self.assertEqual(found.shares, {"serial": Counter({"a.c:7": 4000})})
        self.assertEqual(found.allocated, {"task": Counter({"a.c:9 parse(char const*)": 4000, " ": 2000})})
        self.assertEqual(found.ran,
                         {"serial": Counter({("main", "operator new"): 8000, ("main", "b"): 8000})})
        self.assertEqual(together(found.ran, ["serial", "task"]), found.ran["serial"])

    def test_no_file(self):
        self.assertEqual(calls_of("", [0], ["serial"]), Sampled({}, {}))
