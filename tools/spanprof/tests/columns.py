"""Columns as answers have them, of what tests list one by one."""
from array import array
from operator import add

from spanprof.segment_table import Code, Kind, read_code
from spanprof.time_breakdown import Rows


def segments_of(text):
    """Of a text without loops, one by one."""
    return list(read_code(text.split("\n"), "the text"))


def rows_of(rows):
    """Of each segment its thread, and when it was ready, began and ended."""
    return Rows(*(array("q", column) for column in zip(*rows)))


def code_of(segments):
    out = Code()
    for one in segments:
        out.of.append(out.number(Kind(not one.task, one.task_place, one.after, one.after_place)))
        out.task.append(one.task)
        out.cost.append(one.cost)
    return out


def sums_of(code, path, names):
    """By name what `places` has of the kinds with it, where these segments are on the path."""
    out = {}
    for s, (kind, cost) in enumerate(zip(code.of, code.cost)):
        is_on_path = s in path
        own = 1, cost, is_on_path, cost * is_on_path, 0
        out[names[kind]] = tuple(map(add, out.get(names[kind], (0,) * len(own)), own))
    return out
