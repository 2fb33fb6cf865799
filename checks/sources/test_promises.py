#!/usr/bin/env python3
"""Tests of promises.py."""
import unittest

from promises import promises

SOURCE = """
/// A table.
pub struct Table { rows: u32 }

impl<T> Table {
    /// Adds a row. If memory
    /// runs out, nothing changes.
    #[tactic(auto)]
    pub fn add(&mut self) -> Result<(), AllocFault>
        requires room { x }
        ensures added { y }
    {
        let it = 1;
    }

    /// Private.
    fn inner()
        ensures kept { z }
    {
    }
}

pub fn plain() -> u32 {
    1
}
"""


class Promises(unittest.TestCase):
    def test_comments_and_clauses(self):
        self.assertEqual(list(promises(SOURCE)), [
            ("Table::add", "Adds a row. If memory runs out, nothing changes.", ["room", "added"]),
            ("plain", "", [])])

    def test_private_functions(self):
        self.assertEqual(list(promises(SOURCE, private=True)), [("Table::inner", "Private.", ["kept"])])


if __name__ == "__main__":
    unittest.main()
