"""What `spanprof --help` and `spanprof help COMMAND` print."""
GENERAL = """\
Usage: spanprof COMMAND [ARGUMENT ..]

Record an OpenMP program and look at its recording:

  record        run a program, and print where its time went and what to change first
  report        write a page (HTML) on a recording, or compare two
  whatif        try changes of the recorded program
  predict       predict its time on other numbers of threads
  path          list the places in the source with most of the span
  graph         print the graph of its segments, as CSV or for Graphviz
  convert       make the text of a recording again, or that of a region
  import        make a recording of a build by ninja, a trace, or tasks of StarPU
  test          test an OpenMP runtime

Ask about a program text on standard input, of up to 4,096 tasks:

  span          segments, work and span; also without a command
  slack         each segment's earliest start and slack, and the critical path
  greedy        a greedy schedule on P threads
  curve         greedy schedules and their bounds on 1 to P threads
  whatif        work and span with other costs
  show          the canonical text
  certify       a certificate of the span
  check         whether a certificate holds
  run           run the segments on worker threads, and print what is recorded
  replay        whether a logged run was legal, and what it recorded

Ask about a text of any size; spanprof_large has all commands above but `run`, too:

  bounds        bounds on 1 to P threads
  account       where the time of a run's threads went
  graph         each segment's task, cost and predecessors
  places        each place's work, its part of the critical path and its least slack
  relaxation    whether a changed program waits for no more

spanprof help COMMAND describes a command, spanprof --version prints the version.
"""
FILE = " < FILE"
USAGES = {
    "span": ("spanprof span" + FILE, "The numbers of segments, work and span of a program text."),
    "slack": ("spanprof slack" + FILE,
              "A table (CSV) of segments: task, cost, earliest start, slack, and 1 on the critical path, else 0."),
    "greedy": ("spanprof greedy --threads P" + FILE,
               "A table (CSV) of a greedy schedule on 1 to 1,024 threads: each segment's start, end and thread."),
    "curve": ("spanprof curve --upto P" + FILE,
              "A table (CSV) for 1 to P threads, at most 1,024: the end of a greedy schedule, and both bounds."),
    "show": ("spanprof show" + FILE, "The canonical text of a program."),
    "certify": ("spanprof certify" + FILE, "A certificate of the span, which `spanprof check` accepts."),
    "check": ("spanprof check" + FILE, "Whether the certificate in FILE holds, whoever wrote it."),
    "run": ("spanprof run --workers N" + FILE,
            "Runs the segments on N worker threads, from 1 to 64, and prints the recorded graph and a digest."),
    "replay": ("spanprof replay" + FILE,
               "Whether the events of a replay document are a legal run, and what it records."),
    "whatif": ("spanprof whatif SEGMENT=COST .." + FILE + ", or spanprof whatif RECORDING OPTION ..",
               "Work and span with other costs of segments, and the span before.\n"
               "Of a recording it tries other shapes: `spanprof whatif RECORDING --help` lists the options."),
    "bounds": ("spanprof bounds --upto P" + FILE, "A table (CSV) of both bounds for 1 to P threads, at most 1,024."),
    "account": ("spanprof account [--rows | --path]" + FILE,
                "The time breakdown of a timed document, its rows, or the run's own path."),
    "places": ("spanprof places" + FILE, "A table (CSV) of places: their segments, work, part of the critical path and "
               "least slack;\nwith times busy and idle time, too."),
    "relaxation": ("spanprof relaxation" + FILE,
                   "Whether the second program of a document has the segments of the first and waits for no more."),
    "graph": ("spanprof graph" + FILE, "A table (CSV) of the segments: task, cost, and predecessors with blanks "
              "between them.\n`spanprof graph --dot FILE` writes it for Graphviz."),
}


def help_of(name):
    """The usage of a command of the programs; empty where there is none of this name."""
    if name not in USAGES:
        return ""
    usage, words = USAGES[name]
    return "Usage: %s\n\n%s\ndocs/FORMATS.md has the texts, what is printed, and every error.\n" % (usage, words)
