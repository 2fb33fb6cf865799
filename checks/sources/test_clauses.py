"""Tests of clauses.py: python3 -m unittest checks/sources/test_clauses.py"""
import pathlib
import sys
import unittest

sys.path.insert(0, str(pathlib.Path(__file__).resolve().parent))
from clauses import Crate, faults, unnamed

LIST = """
pub fn push(list: &mut List, one: u32) -> Result<(), Full>
    requires { one < 9 }
    ensures longer { OnOk result (IsLonger list.old list.new) }
    ensures same { OnErr result (list.new ≡ list.old) }
{
    make_room(list)
}

fn make_room(list: &mut List)
    ensures room { HasRoom list.new }
{}
"""
LAWS = """
pub fn never_full()
    ensures { IsNeverFull }
{}
"""
CRATES = {"list": Crate([("list.rt", LIST), ("laws.rt", LAWS)]), "other": Crate([("lib.rt", "fn none() {}")])}


def found(page):
    return list(faults(page, CRATES))


class Clauses(unittest.TestCase):
    def test_of_a_function(self):
        self.assertEqual(found("# Page\n\n`list::push` (`longer`,\n`same`), `list::list::push` (`same`)"), [])
        self.assertEqual(found("`list::push` (`room`)"), ["list::push has no clause room"])
        self.assertEqual(found("`other::push` (`same`)"), ["other::push has no clause same"])
        self.assertEqual(found("`List::push` (`same` and `longer`)"), [])

    def test_of_a_section(self):
        self.assertEqual(found("**`list`**: it grows (`longer`, `make_room`, `IsLonger`)."), [])
        self.assertEqual(found("**`list`**: a\n\n**`other`** (`lib`): it grows (`longer`)."),
                         ["other: no clause, function or module longer"])
        self.assertEqual(found("**`other`** and **`list`**, as one: it grows (`longer`)."), [])
        self.assertEqual(found("**`other`**: a\n\n## Rest\n\nIt grows (`longer`), or not (`shorter`)."),
                         ["outside the sections: no clause, function or module shorter"])

    def test_laws(self):
        self.assertEqual(found("**`list`**: full (law `never_full`), laws `never_full` and\n`list::never_full`."), [])
        self.assertEqual(found("**`list`**: full (law `push`)."), ["list: no law push"])
        self.assertEqual(found("**A promise.** A: laws `never_full`, `always_full`."),
                         ["outside the sections: no law always_full"])

    def test_each_crate_is_named(self):
        self.assertEqual(unnamed(["one", "one_tests", "two"], ["`one::call` holds.", "two"]),
                         ["one_tests is in neither README.md nor docs/PROVED.md"])


if __name__ == "__main__":
    unittest.main()
