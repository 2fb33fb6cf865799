#!/usr/bin/env python3
"""Tests of signatures.py, on two small crates."""
import pathlib
import sys
import unittest

sys.path.insert(0, str(pathlib.Path(__file__).resolve().parent))
from signatures import at_limits, faults, of_crate, promised

LOWER = {
    "lib.rt": "pub mod list;\npub use std::alloc::AllocError as Full;\n",
    "list.rt": '''
/// A list.
#[derive(Drop)]
pub struct List<T> {
    pub most: u32,
    items: Vec<T>,
}

impl<T> Model for List<T> {
    ghost Value = { u32 };
}

impl<T: Clone> List<T> {
    pub fn push(
        &mut self,
        item: T, // the last one then
    ) -> Result<(), Full>
        requires { most < 9 }
        ensures { IsLonger self.old self.new }
    {
        grow(self)
    }

    fn grow(&mut self) {}
}

pub trait Shape: Send {
    ghost sides: { u32 };

    fn area(&self, of: u32) -> u64
        ensures { result ≡ of };
}

pub enum Kind {
    /// One.
    One,
    Many { of: u32, item: Item },
}

pub(crate) fn hidden() {}
''',
}
UPPER = {
    "lib.rt": "mod parts;\nmod copies;\npub use parts::{Part, split};\npub use list::{Full, list};\n",
    "parts.rt": "pub struct Part;\npub fn split(part: &Part) -> (u32, u32) {\n}\npub fn not_shown() {\n}\n",
    "copies.rt": "impl Part {\n    pub fn copy(&self) -> Part\n        ensures { result ≡ self }\n    {\n    }\n}\n",
}
LISTED = of_crate("list", LOWER, {})


ANY_LIMITS = {
    "rows": {
        "lib.rt": "pub mod rows;\n",
        "rows.rt": """
pub struct BoundedRows<const SEGMENTS: u32, const TASKS: u32> {
    rows: Vec<u32>,
}

pub type Rows = BoundedRows<MOST_SEGMENTS, MOST_TASKS_WITH_ROOT>;

impl<const SEGMENTS: u32, const TASKS: u32> BoundedRows<SEGMENTS, TASKS> {
    pub fn len(&self) -> u32 {
    }
}
""",
    },
    "runs": {
        "lib.rt": """
pub struct BoundedRun<K: Kernel, const SEGMENTS: u32, const TASKS: u32> {
    pub rows: BoundedRows<SEGMENTS, TASKS>,
}

/// A run.
pub type Run<K> = BoundedRun<K, MOST_SEGMENTS, MOST_TASKS_WITH_ROOT>;

pub fn run<
    K: Kernel,
    const SEGMENTS: u32,
    const TASKS: u32,
>(
    rows: &BoundedRows<SEGMENTS, TASKS>,
) -> BoundedRun<K, SEGMENTS, TASKS> {
}
""",
    },
}


class Signatures(unittest.TestCase):
    def test_what_takes_any_limits_as_it_is_at_those_of_the_commands(self):
        seen = at_limits(ANY_LIMITS)
        self.assertEqual(list(of_crate("rows", seen["rows"], {}).values()), [
            "struct rows::rows::Rows",
            "fn rows::rows::Rows::len(&self) -> u32",
        ])
        self.assertEqual(list(of_crate("runs", seen["runs"], {}).values()), [
            "struct runs::Run<K: Kernel> { rows: Rows }",
            "fn runs::run<K: Kernel>(rows: &Rows) -> Run<K>",
        ])

    def test_the_lines_of_a_crate(self):
        self.assertEqual(list(LISTED.values()), [
            "type list::Full = std::alloc::AllocError",
            "struct list::list::List<T> { most: u32 }",
            "fn list::list::List::push(&mut self, item: T) -> Result<(), Full>",
            "trait list::list::Shape: Send",
            "fn list::list::Shape::area(&self, of: u32) -> u64",
            "enum list::list::Kind { One, Many { of: u32, item: Item } }",
        ])

    def test_what_a_crate_hands_on(self):
        lines = of_crate("upper", UPPER, {"list": LISTED})
        self.assertEqual(lines["upper::Part"], "struct upper::Part")
        self.assertEqual(lines["upper::split"], "fn upper::split(part: &Part) -> (u32, u32)")
        self.assertEqual(lines["upper::Part::copy"], "fn upper::Part::copy(&self) -> Part")
        self.assertEqual(lines["upper::Full"], "type upper::Full = std::alloc::AllocError")
        self.assertEqual(lines["upper::list::Kind"], "enum upper::list::Kind { One, Many { of: u32, item: Item } }")
        self.assertNotIn("upper::not_shown", lines)
        self.assertNotIn("upper::parts::split", lines)

    def test_a_list_with_a_line_that_goes_on(self):
        self.assertEqual(promised("# A list\n\nfn a::b(\n    c: u32) -> u32\nstruct a::D\n"),
                         ["fn a::b(c: u32) -> u32", "struct a::D"])

    def test_what_is_not_as_promised(self):
        kept = "\n".join(LISTED.values())
        self.assertEqual(list(faults(kept, LISTED)), [])
        self.assertEqual(list(faults("fn list::list::List::pop(&mut self)", LISTED)),
                         ["not there: fn list::list::List::pop(&mut self)"])
        self.assertEqual(list(faults("struct list::list::List<T>", LISTED)),
                         ["promised: struct list::list::List<T>\n   it is: struct list::list::List<T> { most: u32 }"])
        for old, new in (("item: T", "item: &T"), ("Full>", "Kind>"), ("One, ", ""), ("area", "size")):
            self.assertEqual(len(list(faults(kept.replace(old, new), LISTED))), 1, old)


if __name__ == "__main__":
    unittest.main()
