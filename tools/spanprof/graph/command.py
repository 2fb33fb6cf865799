"""spanprof graph FILE: the graph of a program text, as CSV or for Graphviz."""
import argparse

from spanprof import client
from spanprof.answers import Answers
from spanprof.command import Console, Version, check_files, end_with, writing
from spanprof.program_text import TextFile
from spanprof.recording import text_of

BEGIN = ["digraph spanprof {", "  rankdir=TB;", '  node [shape=box, fontname="sans-serif", fontsize=10];']
RED = "color=red, penwidth=2"
CONSOLE = Console("spanprof graph")
DESCRIPTION = """Prints the graph of a program text: a row for each segment with its task, its cost and its
predecessors by kept edges, of which chains imply all other dependences."""
AFTER = "Exit status 1: the text is refused, or spanprof_large is not found; 2: wrong arguments."


def node(number, place, cost, is_on_path):
    name = place.replace("\\", "\\\\").replace('"', '\\"')
    return '  s%d [label="%d: %s\\n%d"%s];' % (number, number, name, cost, ", " + RED if is_on_path else "")


def edge(first, second, is_on_path):
    return "  s%d -> s%d%s;" % (first, second, " [%s]" % RED if is_on_path else "")


def lines(segments, path):
    """The text, line by line: a box for each segment with its place and cost, an arrow for each kept edge. `segments`
    has task, place, cost and predecessors of each, `path` those of the critical path in their order. What the root does
    at no cost before all else, such as creating tasks, is left out."""
    members, steps, left_out = set(path), set(zip(path, path[1:])), set()
    yield from BEGIN
    for number, (task, place, cost, predecessors) in enumerate(segments):
        if not task and not cost and left_out.issuperset(predecessors):
            left_out.add(number)
            continue
        yield node(number, place, cost, number in members)
        yield from (edge(first, number, (first, number) in steps) for first in predecessors if first not in left_out)
    yield "}"


def parse(words):
    parser = argparse.ArgumentParser(prog="spanprof graph", description=DESCRIPTION, epilog=AFTER, allow_abbrev=False)
    parser.add_argument("text", metavar="FILE", help="a recording, a program text, or - for standard input")
    parser.add_argument("--dot", action="store_true", help="print it for Graphviz (`| dot -Tsvg > graph.svg`), with "
                        "places in the source and the critical path in red")
    parser.add_argument("-o", "--output", help="write to this file")
    parser.add_argument("--version", action=Version)
    return parser.parse_args(words)


def table_lines(path):
    client.measured(path)   # its fault names the line
    for found in client.pieces(["graph"], TextFile(path)):
        yield from found.decode().splitlines()


def dot_lines(path):
    answers = Answers(path)
    code = answers.code
    return lines(zip(code.task, code.places, code.cost, answers.predecessors), answers.path_segments)


def answer(options):
    options.text = text_of(options.text)
    check_files(options.text, options.output, "graph")
    reported = dot_lines(options.text) if options.dot else table_lines(options.text)
    if not options.output:
        print(*reported, sep="\n")
        return
    with writing(options.output) as out:
        print(*reported, sep="\n", file=out)


def main(words):
    end_with(CONSOLE, lambda: answer(parse(words)))
