"""What spanprof answers to a text, what a program over the library does, and what the Python module does, as texts."""
import csv
import io
import subprocess

SECONDS = 120


def of_program(words, text):
    """The status and the output of a program; a crash, a word on standard error or no end in time is none."""
    try:
        ran = subprocess.run(words, input=text, capture_output=True, timeout=SECONDS, check=False)
    except subprocess.TimeoutExpired as error:
        raise RuntimeError("%s: no end in %d s" % (" ".join(words[1:]), SECONDS)) from error
    if ran.returncode not in (0, 1) or ran.stderr:
        raise RuntimeError("%s: status %s: %s" % (" ".join(words[1:]), ran.returncode, ran.stderr[-200:]))
    return ran.returncode, ran.stdout.decode()


def table(head, rows):
    """Rows as the commands print them."""
    text = io.StringIO()
    writer = csv.writer(text, lineterminator="\n")
    writer.writerow(head.split(","))
    writer.writerows(rows)
    return text.getvalue()


def span(program):
    return "segments %d\nwork %d\nspan %d\n" % (program.segments, program.work, program.span)


def slack(program):
    on_path = set(int(segment) for segment in program.path())
    rows = zip(program.tasks, program.costs, program.starts(), program.slack())
    return table("segment,task,cost,start,slack,chain", ((s, *row, int(s in on_path)) for s, row in enumerate(rows)))


def greedy(program, threads, none):
    run = program.greedy(threads)
    rows = zip(program.costs, run.starts, run.threads)
    return table("segment,start,end,thread", ((s, start, int(start) + int(cost), "" if thread == none else thread)
                                              for s, (cost, start, thread) in enumerate(rows)))


def curve(program, upto):
    rows = ((p, end) + tuple(program.bounds(p)) for p, end in enumerate(program.curve(upto), 1))
    return table("threads,end,least,bound", rows)


def whatif(program, changes):
    other = program.what_if(changes)
    return "work %d\nspan %d\nwas %d\n" % (other.work, other.span, program.span)


def check(module, document, any_size):
    shown = module.check(document, any_size)
    return "accepted\nsegments %d\nend %d\n" % shown


def account(module, document, rows, any_size):
    """The sums or the rows of a timed document, whose lines of times are right."""
    text, _, times = document.partition(b"\n---\ntimes ")
    (count, first, last), *lines = [[int(word) for word in line.split()] for line in times.splitlines()]
    _, threads, begins, ends = zip(*sorted(lines))
    reported = module.Program(text + b"\n", any_size=any_size).account(threads, begins, ends, count, first, last)
    if rows:
        return table("segment,thread,ready,begin,end", zip(range(len(lines)), threads, (max(first, int(ready)) for ready
                                                           in reported.ready), begins, ends))
    return ("threads %d\nelapsed %d\nbusy %d\ndelayed %d\nstarved %d\noutside %d\n"
            % ((count, last - first) + reported[:4]))


def of_text(module, words, text, any_size):
    """What a command about a text is answered."""
    command, *rest = words
    program = module.Program(text, any_size=any_size)
    if command == "span":
        return span(program)
    if command == "slack":
        return slack(program)
    if command == "greedy":
        return greedy(program, int(rest[1]), module.NO_THREAD)
    if command == "curve":
        return curve(program, int(rest[1]))
    return whatif(program, {int(s): int(cost) for s, cost in (word.split("=") for word in rest)})


def of_module(module, words, text):
    """The same from the Python module, by the words of ask.c."""
    try:
        any_size = words[0] == "any"
        if words[any_size] == "check":
            return 0, check(module, text, any_size)
        if words[any_size] == "account":
            return 0, account(module, text, words[any_size + 1:], any_size)
        return 0, of_text(module, words[any_size:], text, any_size)
    except module.Refused as refused:
        return 1, "error: %s\n" % refused
