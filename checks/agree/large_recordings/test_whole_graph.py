"""Compares the graph with the pairs of the model: `python3 -m unittest test_whole_graph` in this folder."""
import os
import sys
import unittest

sys.path.insert(0, os.path.dirname(os.path.dirname(os.path.abspath(__file__))))

from random_programs import chain, draw, independent, nested, tree
from whole_graph import SHARED, WORDS, read


def conflict(items, others):
    return any(name == other and not (kind == kind_too and kind in SHARED)
               for kind, name in items for kind_too, other in others)


class Pairs:
    """Every task is compared with every earlier one."""

    def __init__(self, text):
        self.words = [word for line in text.split("\n") for word in WORDS.findall(line.partition("#")[0])][2:]
        self.ends, self.open, self.blocks, self.work = [0], [0], [], 0
        self.tasks = [(None, (), False)]  # maker, items, undeferred
        while self.words:
            self.statement(self.words.pop(0))

    def statement(self, word):
        now = self.open[-1]
        if word == "work":
            cost = int(self.words.pop(0))
            self.ends[now] += cost
            self.work += cost
        elif word == "task":
            self.begin()
        elif word == "taskgroup":
            self.words.pop(0)
            self.blocks.append(len(self.tasks))
        elif word == "taskwait":
            self.wait([t for t, (maker, _, _) in enumerate(self.tasks) if maker == now])
        else:
            self.end()

    def wait(self, tasks):
        now = self.open[-1]
        self.ends[now] = max([self.ends[now]] + [self.ends[t] for t in tasks])

    def begin(self):
        clauses = self.words[:self.words.index("{")]
        del self.words[:len(clauses) + 1]
        items, kind = [], ""
        for i, word in enumerate(clauses):
            if i >= 2 and clauses[i - 2] == "depend":
                kind = word
            elif kind and word not in ("depend", "(", ")", ",", ":", "if", "0"):
                items.append((kind, word))
        maker = self.open[-1]
        start = max([self.ends[maker]] + [self.ends[t] for t, (other, theirs, _) in enumerate(self.tasks)
                                          if other == maker and conflict(items, theirs)])
        self.open.append(len(self.tasks))
        self.tasks.append((maker, items, "if" in clauses))
        self.ends.append(start)
        self.blocks.append(None)

    def end(self):
        block = self.blocks.pop()
        if block is not None:
            return self.wait(range(block, len(self.tasks)))
        task = self.open.pop()
        return self.wait([task] if self.tasks[task][2] else [])


class Numbers(unittest.TestCase):
    def test_programs_with_known_numbers(self):
        for text, numbers in (independent(100), chain(100), nested(100), tree(7)):
            self.assertEqual(tuple(read(text.split("\n")).numbers().values()), numbers)

    def test_the_example_of_the_model(self):
        graph = read(["omptasks 1", "work 5 task { work 3 } work 2 taskwait work 1"])
        self.assertEqual(graph.numbers(), {"tasks": 1, "segments": 4, "work": 11, "span": 9})

    def test_undeferred_tasks(self):
        for clause, span in (("if(0)", 5), ("if(1)", 3), ("if(00)", 5), ("", 3)):
            self.assertEqual(read(["omptasks 1 task %s { work 3 } work 2" % clause]).span, span)

    def test_random_programs(self):
        for seed in range(500):
            text = draw(seed)
            pairs, graph = Pairs(text), read(text.split("\n"))
            self.assertEqual((graph.work, graph.span), (pairs.work, max(pairs.ends)), text)


if __name__ == "__main__":
    unittest.main()
